#!/usr/bin/env python3
"""Times scripts on traces, beside the check of the same trace.

    bench/edit_times.py PROGRAM [LINES [TRACE..]]

LINES is the longest trace, 1,000,000 where none is named: each trace is timed with a hundredth, a tenth and all of them.
Nothing is found in `quiet`; there are ten findings in `ten`, one in each twentieth line of `loud`, and few in `forms`.

What counts is the ratio to `check`, which runs in turn with the scripts, by medians. `load` asks for the number of lines
alone: the trace is read, and its tree is made. The others are what one more costs, by the slope between a script with few
and one with many:

    edit     a line is replaced by another, anywhere, and `report K K` asks for that line
    lasting  a limit near the start is put in and taken out again, and `report N N` asks for the last line
    report   a line is replaced, and all is reported

Peak memory is that of `load`.
"""

import itertools
import random
from statistics import median

import timing
import traces

ROUNDS = 5
CALL = "100 getpid() RET 100"
LIMIT = "100 cap_rights_limit(3,CAP_READ|CAP_SEEK) RET 0"


def edits(lines):
    rng = random.Random(5)
    while True:
        place = rng.randrange(64, lines) + 1
        yield f"replace {place} {CALL}", f"report {place} {place}"


def lasting(lines):
    rng = random.Random(6)
    for turn in itertools.count():
        place = rng.randrange(64, max(lines // 10, 80)) + 1
        yield f"insert {place} {LIMIT}" if turn % 2 == 0 else f"delete {place}", f"report {lines} {lines}"


def reports(lines):
    rng = random.Random(7)
    while True:
        yield f"replace {rng.randrange(64, lines) + 1} {CALL}", "report"


# Each script, and how many of its steps there are in one with few and in one with many. A report of many findings takes long.
FEW, MANY = 2, 1000
SCRIPTS = {"edit": edits, "lasting": lasting, "report": reports}
REPORTS = {"quiet": 1000, "ten": 300, "loud": 6}


def measure(trace, program):
    most = {"edit": MANY, "lasting": MANY, "report": REPORTS.get(trace.kind, 30)}
    scripts = {"load": ["count"]}
    for script, steps in SCRIPTS.items():
        for count in (FEW, most[script]):
            scripts[f"{script}{count}"] = itertools.chain(*itertools.islice(steps(len(trace.lines)), count))
    commands = {"check": [program, "check", *trace.words]}
    for script, lines in scripts.items():
        traces.put(lines, f"{trace.path}.{script}")
        commands[script] = [program, "edit", *trace.words, f"{trace.path}.{script}"]
    took = {run: median(runs.clock) * 1000 for run, runs in timing.in_turn(commands, ROUNDS).items()}
    timing.figure(f"edit.{trace.name}.check.time", took["check"], "ms")
    timing.figure(f"edit.{trace.name}.load.time", took["load"], "ms", took["check"])
    for script, count in most.items():
        each = (took[f"{script}{count}"] - took[f"{script}{FEW}"]) / (count - FEW)
        timing.figure(f"edit.{trace.name}.{script}.time", each, "ms", took["check"])
    timing.figure(f"edit.{trace.name}.load.memory", timing.run(commands["load"], weighed=True).memory, "MB")


timing.bench(__doc__, measure, ("quiet", "ten", "loud", "forms"), parts=(100, 10, 1))
