#!/usr/bin/env python3
"""What each step of a running gate costs: tools/gate_costs.py [SECONDS]

Start it beside `make test`. It looks at the machine's processes (Linux's /proc) every two seconds until no `rattle` has run for
a minute, or for SECONDS, and prints processor seconds: for each crate its proof, its tests, the proof that its wrong bodies begin
with, and its wrong bodies; then each wrong body, the dearest first. Only what this checkout's `make test` started is counted. A
process that ends between two looks may be missed.
"""

import collections
import os
import re
import sys
import time

ROOT = os.path.dirname(os.path.dirname(os.path.abspath(__file__)))
PAUSE = 2.0  # seconds between looks
QUIET = 60.0  # seconds without a process after which the gate has ended
TICKS = os.sysconf("SC_CLK_TCK")
KINDS = ("proof", "tests", "begin", "wrong body")
NEXT = "next"  # of a wrong body that has no number


def words_of(pid):
    """The words of a process of `rattle`, or nothing."""
    with open(f"/proc/{pid}/cmdline", encoding="utf-8", errors="replace") as file:
        words = file.read().split("\0")
    return words if os.path.basename(words[0]) == "rattle" and "--crate-name" in words else []


def is_ours(pid):
    """Whether a process, or one that it comes from, works in this checkout."""
    while pid not in ("0", "1"):
        if (os.readlink(f"/proc/{pid}/cwd") + "/").startswith(ROOT + "/"):
            return True
        pid = spent(pid)[0]
    return False


def spent(pid):
    """The parent of a process, when it began, and the processor seconds that it took, with those of its copies that have ended."""
    with open(f"/proc/{pid}/stat", encoding="utf-8", errors="replace") as file:
        fields = file.read().rpartition(")")[2].split()
    return fields[1], fields[19], sum(map(int, fields[11:15])) / TICKS


def step_of(pid, words):
    """The crate that a process checks, the kind of the step, and the wrong body if it is one."""
    crate = words[words.index("--crate-name") + 1]
    kept = os.path.basename(words[words.index("--incremental") + 1]) if "--incremental" in words else ""
    if kept == "seed":
        return crate, "begin", ""
    if os.path.basename(os.readlink(f"/proc/{pid}/cwd")).startswith("rt-edit"):
        return crate, "wrong body", kept if kept.isdigit() else NEXT
    return re.sub("_tests$", "", crate), "tests" if "--test" in words or crate.endswith("_tests") else "proof", ""


def bodies_of(crate):
    """The names of a crate's wrong bodies, in the order in which they are tried."""
    folder = f"{ROOT}/crates/{crate}/must-fail"
    return sorted(it for it in os.listdir(folder) if it.endswith(".edit")) if os.path.isdir(folder) else []


def named(steps):
    """The steps, each with the name of its wrong body. A kit that has no number for one tries them in turn: the first is where the
    crate is proved to begin with, and what comes after the last is the crate unchanged."""
    turns, found = collections.Counter(), []
    for (_, began), ((crate, kind, body), seconds) in sorted(steps.items(), key=lambda it: int(it[0][1])):
        if kind == "wrong body":
            names, at = bodies_of(crate), turns[crate] if body is NEXT else int(body)
            turns[crate] += 1
            kind = "begin" if body is NEXT and at == 0 else kind
            body = names[at] if at < len(names) else "from nothing or unchanged"
        found.append(((crate, kind, body), seconds))
    return found


def look(seen):
    """Looks at each process once, and answers whether one of `rattle` runs."""
    is_running = False
    for pid in filter(str.isdigit, os.listdir("/proc")):
        try:
            words = words_of(pid)
            if words and is_ours(pid):
                is_running = True
                parent, began, seconds = spent(pid)
                if words_of(parent) == words:
                    continue  # a copy, which its parent counts
                step = seen[pid, began][0] if (pid, began) in seen else step_of(pid, words)
                seen[pid, began] = step, seconds
        except OSError:
            pass  # it has ended
    return is_running


def watch(limit):
    """The steps that ran, each with its processor seconds."""
    seen, end, quiet = {}, time.monotonic() + limit, time.monotonic() + QUIET
    while time.monotonic() < min(end, quiet):
        if look(seen):
            quiet = time.monotonic() + QUIET
        time.sleep(PAUSE)
    return named(seen)


def main():
    steps = watch(float(sys.argv[1]) if len(sys.argv) > 1 else float("inf"))
    crates, bodies = collections.defaultdict(collections.Counter), collections.Counter()
    for (crate, kind, body), seconds in steps:
        crates[crate][kind] += seconds
        if body:
            bodies[crate, body] += seconds
    print(f"{'':16}" + "".join(f"{kind:>12}" for kind in KINDS) + f"{'each':>8}")
    for crate, costs in sorted(crates.items()):
        each = costs["wrong body"] / max(1, sum(it[0] == crate for it in bodies))
        print(f"{crate:16}" + "".join(f"{costs[kind]:12.0f}" for kind in KINDS) + f"{each:8.0f}")
    print(f"{'in all':16}" + "".join(f"{sum(it[kind] for it in crates.values()):12.0f}" for kind in KINDS))
    for (crate, body), seconds in bodies.most_common():
        print(f"{seconds:6.0f} {crate}/{body}")


main()
