#!/usr/bin/env python3
"""Counts the instructions of edits in a loaded session, with a look at each, beside those of a check.

    bench/edit_instructions.py PROGRAM [LINES [TRACE..]]

TRACE is `mixed` where none is named. Each is measured with a hundredth and a tenth of LINES, 1,000,000 where none are named, and with
all. Needs valgrind, and counts only while the program works on the steps, so that a trace of a million lines takes some minutes.
Instructions don't depend on how busy the machine is.
For each length what one step costs, by the mean of STEPS of them; of ordinary ones by the mean over all SEEDS, each in a session of
its own, since which lines are edited makes a difference of a tenth:

    ordinary  a line from the middle half is replaced by one at most seven lines away, and `report K K` asks for it
    front     the same in the first hundredth
    lasting   a line in the first tenth is replaced by a limit, or put back, and `report N N` asks for the last line
    full      a line from the middle half is replaced by a call that says nothing, and `report` asks for all findings

and how many of them take what the goals for edits count as a check.
"""

import random

import timing
import traces

STEPS = 40
SEEDS = (11, 12, 13, 14, 15, 16)
# The instructions of a line of `mixed` in a check that the goals for edits are fractions of.
CHECK = 2_617
LIMIT = "cap_rights_limit(2,CAP_READ|CAP_SEEK) RET 0"


def replaced(made, low, high, rng):
    for _ in range(STEPS):
        place = rng.randrange(max(low, 7), high)
        yield f"replace {place + 1} {traces.neighbour(made, place, rng)}", f"report {place + 1} {place + 1}"


def ordinary(made, rng):
    return replaced(made, len(made) // 4, len(made) * 3 // 4, rng)


def front(made, rng):
    return replaced(made, 0, max(len(made) // 100, 32), rng)


def lasting(made, rng):
    look = f"report {len(made)} {len(made)}"
    for _ in range(STEPS // 2):
        place = rng.randrange(16, max(len(made) // 10, 32))
        yield f"replace {place + 1} {made[place].split(' ')[0]} {LIMIT}", look
        yield f"replace {place + 1} {made[place]}", look


def full(made, rng):
    for _ in range(STEPS // 10):
        yield f"replace {rng.randrange(len(made) // 4, len(made) * 3 // 4) + 1} 100 getpid() RET 100", "report"


def measure(trace, program):
    timing.remark(f"{len(trace.lines).bit_length()} binary digits")
    for steps in (ordinary, front, lasting, full):
        seeds = SEEDS if steps is ordinary else SEEDS[:1]
        counts = [timing.counted_steps([program, "edit", *trace.words], steps(trace.lines, random.Random(seed))) for seed in seeds]
        name, each = f"edit.{trace.name}.{steps.__name__}", sum(counts) // len(counts)
        timing.figure(f"{name}.instructions", each, "instructions")
        timing.figure(f"{name}.in_a_check", CHECK * len(trace.lines) // each, "steps")


timing.bench(__doc__, measure, ["mixed"], parts=(100, 10, 1), tools=["valgrind"])
