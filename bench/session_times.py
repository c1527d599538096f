#!/usr/bin/env python3
"""Time and memory of a session on each trace, beside a check of the same trace.

    bench/session_times.py PROGRAM [LINES [TRACE..]]

The traces are those of TRACES in traces.py at 1,000,000 lines, most of them made to be hard: all of them, or those that are
named. `execs` and `turns` run in profile 2. The session loads the trace and is asked for the findings of its last line; when its
script ends it has to know whether the trace has any. Of both runs the user seconds, and the peak memory by `/usr/bin/time`,
which it needs. Then, in a session that has loaded the trace, the milliseconds by the clock until a whole report is read, and as
parts of those of a check by the clock:

    first_report      the first one
    report            one after another one, with no edit between them, the median of five
    edit_and_report   a line from the middle half is replaced by one at most seven lines away, and the report after it, the median
                      of five
"""

import random
from statistics import median

import timing
import traces

TIMES = 5


def reports(command, trace, check):
    """Reports of a session, beside the milliseconds of a check."""
    made, rng = trace.lines, random.Random(12)
    talk = timing.Talk(command)
    talk.ask("report 1 1")
    took = {"first_report": talk.ask("report"), "report": median(talk.ask("report") for _ in range(TIMES))}
    places = [rng.randrange(max(len(made) // 4, 7), len(made) * 3 // 4) for _ in range(TIMES)]
    took["edit_and_report"] = median(talk.ask(f"replace {at + 1} {traces.neighbour(made, at, rng)}", "report") for at in places)
    talk.end()
    for name, value in took.items():
        timing.figure(f"session.{trace.name}.{name}", value, "ms", check)


def measure(trace, program):
    script, edit = f"{trace.path}.script", [program, "edit", *trace.words]
    traces.put([f"report {len(trace.lines)} {len(trace.lines)}"], script)
    runs = {"check": [program, "check", *trace.words], "load": [*edit, script]}
    runs = {name: timing.run(command, weighed=True) for name, command in runs.items()}
    for name, run in runs.items():
        timing.figure(f"session.{trace.name}.{name}.user", run.user, "s")
        timing.figure(f"session.{trace.name}.{name}.memory", run.memory, "MB")
    reports(edit, trace, runs["check"].clock * 1000)


timing.bench(__doc__, measure, tools=["/usr/bin/time"])
