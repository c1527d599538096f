#!/usr/bin/env python3
"""Counts the instructions of `check`, of a session's load, of `denials`, `explain` and `limits`, for each line of a trace.

    bench/command_instructions.py PROGRAM [LINES [TRACE..]]

The traces are files, or those of TRACES in traces.py, made from a fixed seed: `quiet`, `used`, `forms` and `mixed` where none is
named, with 100,000 lines. Needs valgrind. Instructions don't depend on how busy the machine is. For each trace: the instructions of
a line after the first 100, where line 1 is explained and `limits_K` asks for limits before line 100, and the functions in which most of
those of a check are spent. For `used`, of which a third are markers, also how its check is to that of `quiet`, which has as many lines.
"""

import timing
import traces

COMMANDS = {"check": [], "edit": [], "denials": [], "explain": ["1"], "limits": [], "limits_K": ["100"]}
FEW = 100
# Functions with fewer instructions a line aren't shown.
LEAST = 20
# The instructions a line of a check of each trace.
checks = {}


def measure(trace, program):
    """What each command takes beyond what it takes on the first FEW lines."""
    few = f"{trace.path}.few"
    traces.put(trace.lines[:FEW], few)
    for name, more in COMMANDS.items():
        command = [program, name.split("_")[0]]
        all_of, functions = timing.counted_each([*command, *trace.words, *more])
        each = (all_of - timing.counted([*command, few, *trace.words[1:], *more])) / (len(trace.lines) - FEW)
        timing.figure(f"{name}.{trace.name}.instructions_a_line", each, "instructions", checks.get(trace.kind))
        checks.setdefault(trace.kind, each)
        for function, count in functions.most_common() if name == "check" else ():
            if count >= LEAST * len(trace.lines):
                timing.figure(f"check.{trace.name}.in.{function}", count / len(trace.lines), "instructions")
    if trace.kind == "used" and "quiet" in checks:
        timing.figure("check.used.instructions_a_line.to_quiet", checks["used"] / checks["quiet"], "ratio")


timing.bench(__doc__, measure, ("quiet", "used", "forms", "mixed"), 100_000, tools=["valgrind"])
