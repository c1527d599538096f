#!/usr/bin/env python3
"""Counts the instructions of a fork whose pid was used before, by a process that had many descriptors.

    bench/fork_instructions.py PROGRAM

The fork alone, and a line after it, which frees a few parts of what that process had: beside a process with 50 descriptors one
with 500,000. Needs valgrind. Instructions don't depend on how busy the machine is.
"""

import os

import timing
import traces

FORK = "cap_machine::table::Table::fork"
AFTER = 1_000


def trace(count, forks, after):
    """A process makes so many descriptors and ends; another one forks its pid, or doesn't, and closes nothing so many times."""
    out = ["100 @start()"]
    out += [f"100 socket(0) RET {fd}" for fd in range(count)]
    out += ["100 @exit()", "200 @start(0)"]
    out += ["200 fork() RET 100"] if forks else []
    return out + ["200 close(0) RET -1 errno 9"] * after


def fork(folder, program):
    """The fork, and what the lines after it take more than the same lines without it."""
    path = os.path.join(folder, "trace")

    def counted(*of, only=()):
        traces.put(trace(*of), path)
        return timing.counted([program, "check", path], *only)

    for count in (50, 500_000):
        timing.figure(f"fork.{count}_descriptors", counted(count, True, 0, only=[f"--toggle-collect={FORK}"]), "instructions")
        with_it, without = (counted(count, forks, AFTER) - counted(count, forks, 0) for forks in (True, False))
        timing.figure(f"fork.{count}_descriptors.a_line_after_it", (with_it - without) // AFTER, "instructions")


timing.bench(__doc__, None, (), tools=["valgrind"], others={"fork": fork})
