#!/usr/bin/env python3
"""Counts the instructions of edits with a whole report, where there are findings, beside those of a check.

    bench/report_instructions.py PROGRAM [LINES [TRACE..]]

LINES are 999,000 where none are named, since lines are put in, and TRACE is each `refused_N` and `lacking_N` of traces.py, with about
N findings in a million lines, and `lacking_250_beside_N`, with N of the first kind and 250 of the second. Needs valgrind. Of each
trace, in instructions and as a part of a check of the whole trace:

    check     `capcheck check`
    first     the first `report`, after the trace is loaded
    few       a line from the middle half is replaced by one at most seven lines away, and `report`
    changes   the same, and `changes`
    lasting   a close of descriptor 2, which no line uses, is put in at the middle, or taken out again, and `report`
    limit     the limit in line 2 is replaced by one that gives the right, or takes it back, and `report`: the findings of the second
              kind, all of them or some hundreds beside thousands of others, go or come
    many      a close of descriptor 0, which thousands of later lines use, is put in there, or taken out again, and `report`
"""

import random

import timing
import traces

LIMITS = ("CAP_READ|CAP_WRITE|CAP_FSTAT", "CAP_READ|CAP_FSTAT")


def first(made, rng):
    yield "count", "report"


def few(made, rng, look="report"):
    for _ in range(8):
        place = rng.randrange(len(made) // 4, len(made) * 3 // 4)
        yield f"replace {place + 1} {traces.neighbour(made, place, rng)}", look


def changes(made, rng):
    return few(made, rng, "changes")


def in_turn(made, line):
    middle = len(made) // 2
    for change in (f"insert {middle} {line}", f"delete {middle}") * 2:
        yield change, "report"


def lasting(made, rng):
    return in_turn(made, "103 close(2) RET 0")


def many(made, rng):
    return in_turn(made, "103 close(0) RET 0")


def limit(made, rng):
    for rights in LIMITS * 2:
        yield f"replace 2 100 cap_rights_limit(0,{rights}) RET 0", "report"


def measure(trace, program):
    check = timing.counted([program, "check", *trace.words])
    timing.figure(f"report.{trace.name}.check", check, "instructions")
    for steps in (first, few, changes, lasting, limit, many):
        if steps is not limit or trace.kind.startswith("lacking"):
            # The report before the first step is not counted: what is asked for is what the session keeps by it.
            before = [] if steps is first else ["report"]
            each = timing.counted_steps([program, "edit", *trace.words], steps(trace.lines, random.Random(11)), before)
            timing.figure(f"report.{trace.name}.{steps.__name__}", each, "instructions", check)


timing.bench(__doc__, measure, tuple(traces.FOUND), 999_000, tools=["valgrind"])
