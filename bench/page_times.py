#!/usr/bin/env python3
"""Times the page that contrib/annotate.py makes of a trace with many findings.

    bench/page_times.py PROGRAM [LINES [TRACE..]]

The trace is `lacking_10000` of traces.py, with 10,000 findings in a million lines, or those that are named. By the clock, the least
of some runs in turn, and as parts of a check:

    page      with explanations of 2,000 lines
    findings  without any: what is left is one check, and Python

How often the program is started, which reads the trace each time, is what a page with many explanations depends on.
"""

import os
import sys

import timing

ROUNDS = 3
ANNOTATE = [sys.executable, os.path.join(timing.ROOT, "contrib", "annotate.py"), "--format", "html"]


def measure(trace, program):
    commands = {"check": [program, "check", *trace.words]}
    for name, most in (("page", "2000"), ("findings", "0")):
        commands[name] = [*ANNOTATE, "--capcheck", program, "--explain", most, *trace.words]
    least = {name: min(runs.clock) for name, runs in timing.in_turn(commands, ROUNDS).items()}
    for name, seconds in least.items():
        timing.figure(f"page.{trace.name}.{name}.time", seconds * 1000, "ms", None if name == "check" else least["check"] * 1000)


timing.bench(__doc__, measure, names=("lacking_10000",))
