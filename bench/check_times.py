#!/usr/bin/env python3
"""Times the program on traces of a million lines, beside `wc -l` on the same file.

    bench/check_times.py PROGRAM [LINES [TRACE..]]

The traces are those of TRACES in traces.py: all of them, or those that are named. `execs` and `turns` run in profile 2.
Then, where `held` is named or nothing is: what a fork with a call and an exit more costs where the process has 500,000
descriptors, beside one that has 50, for an exec and a closefrom in both profiles. That is the slope between few such turns
and many.

Machines are noisy, so the two run in turn, several times, and what counts is the ratio of the medians. Each
trace is made anew under a temporary folder, from a fixed seed, and named to both. Peak memory is what
`/usr/bin/time` measures in one more run, where that is installed.
"""

import os
from statistics import median

import timing
import traces

ROUNDS = 7
# The descriptors of a process, and the turns, of `held`.
HELD = (50, 500_000)
TURNS = (1_000, 120_000)
CALLS = ('execve("/bin/sh")', "closefrom(10)")


def check(trace, program):
    command = [program, "check", *trace.words]
    timing.run(command)
    runs = timing.in_turn({"check": command, "wc": ["wc", "-l", trace.path]}, ROUNDS)
    times, lines = runs["check"].clock, len(trace.lines) / 1e6
    timing.figure(f"check.{trace.name}.speed", lines / median(times), "million_lines_a_second")
    timing.figure(f"check.{trace.name}.best_speed", lines / min(times), "million_lines_a_second")
    timing.figure(f"check.{trace.name}.to_wc", median(times) / median(runs["wc"].clock), "ratio")
    timing.figure(f"check.{trace.name}.bytes", os.path.getsize(trace.path) / median(times) / 1e6, "MB_a_second")
    timing.figure(f"check.{trace.name}.memory", timing.run(command, weighed=True).memory, "MB")


def slope(folder, program, profile, call, count):
    """Seconds of a turn more, where a process has so many descriptors."""
    path, least = os.path.join(folder, "held"), []
    for times in TURNS:
        traces.put(traces.held(count, call, times), path)
        least.append(min(timing.run([program, "check", "--profile", profile, path]).clock for _ in range(ROUNDS)))
    return (least[1] - least[0]) / (TURNS[1] - TURNS[0])


def held(folder, program):
    """The slopes with many descriptors, and as parts of those with few."""
    for profile in "12":
        for call in CALLS:
            few, many = (slope(folder, program, profile, call, count) for count in HELD)
            name = f"held.{call.split('(')[0]}.profile_{profile}.turn"
            timing.figure(name, many * 1e9, "ns")
            timing.figure(f"{name}.to_few_descriptors", many / few, "ratio")


timing.bench(__doc__, check, others={"held": held})
