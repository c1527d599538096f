#!/usr/bin/env python3
"""Times `denials` and `limits` beside a check of the same trace.

    bench/command_times.py PROGRAM [LINES [TRACE..]]

The traces are those of TRACES in traces.py: all of them, or those that are named, with a tenth of LINES and with LINES, 1,000,000
where none is named. `execs` and `turns` run in profile 2. What is timed:

    denials     beside a check, which reads in the same way
    explain     of the first line: the trace is read and its lines are kept, as for `limits`, and next to nothing else is done
    limits      of all that the trace makes
    limits_K    before the line after the first thousandth, so nearly all lines are gone over backward

All run in turn, several times. What counts are the ratios of the processor seconds, the least of each, to those of the check; where
a ratio doesn't grow from a tenth of the lines to all of them, the command grows as a check does. Peak memory is that of `limits_K`.
"""

import timing

ROUNDS = 5


def measure(trace, program):
    after = {"check": [], "denials": [], "explain": ["1"], "limits": [], "limits_K": [str(len(trace.lines) // 1000 + 1)]}
    commands = {name: [program, name.split("_")[0], *trace.words, *more] for name, more in after.items()}
    least = {name: min(runs.processor) for name, runs in timing.in_turn(commands, ROUNDS).items()}
    for name, seconds in least.items():
        timing.figure(f"{name}.{trace.name}.processor", seconds * 1000, "ms", None if name == "check" else least["check"] * 1000)
    timing.figure(f"limits_K.{trace.name}.memory", timing.run(commands["limits_K"], weighed=True).memory, "MB")


timing.bench(__doc__, measure, parts=(10, 1))
