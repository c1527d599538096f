#!/usr/bin/env python3
"""The gate: tests/gate.py tests/run.py tests/refusals.py

Runs `rt ci`, and beside it each script, as soon as that has built what the script is handed: the program, so that it is proved and
built once, or of `tests/refusals.py` the tests of cap_refusal_tests. What the scripts print comes before the last line of `rt ci`,
which stays the last; scripts that failed count as failed there. The status is 0 where `rt ci` and all scripts passed. Above it is
what `rt ci` took by the clock, and in seconds of processors.

`rt ci` takes as many steps side by side as it believes that memory holds, by an estimate of twice what they take here. So
where three processors or more each have the memory that a step takes at most, it is handed their number as RT_JOBS, unless
that is set. The scripts need bash and a C compiler (tests/compiler.py).
"""

import os
import re
import shutil
import subprocess
import sys
import tempfile
import threading
import time

import compiler

ROOT = os.path.dirname(os.path.dirname(os.path.abspath(__file__)))
PROGRAM = os.path.join(ROOT, "crates", "capcheck", "out", "capcheck")
REFUSALS = os.path.join(ROOT, "crates", "cap_refusal_tests", "out", "cap_refusal_tests_tests")
LOOKS = {PROGRAM: "--version", REFUSALS: "--list"}  # with which word each of what is built ends well
PAUSE = 2.0  # seconds between looks for them
STEP = 5_600_000_000  # bytes that a step of `rt ci` takes at most, as measured
GROUPS = [  # the limit of a control group and what it holds, in bytes
    ("/sys/fs/cgroup/memory.max", "/sys/fs/cgroup/memory.current"),
    ("/sys/fs/cgroup/memory/memory.limit_in_bytes", "/sys/fs/cgroup/memory/memory.usage_in_bytes"),
]
QUOTAS = [  # the processor time of a control group in a period, and the period
    (("/sys/fs/cgroup/cpu.max", r"^(\d+)"), ("/sys/fs/cgroup/cpu.max", r" (\d+)")),
    (("/sys/fs/cgroup/cpu/cpu.cfs_quota_us", r"^(\d+)"), ("/sys/fs/cgroup/cpu/cpu.cfs_period_us", r"(\d+)")),
]


def is_built(binary):
    """Whether it is there and runs."""
    nothing = subprocess.DEVNULL
    try:
        ran = subprocess.run([binary, LOOKS[binary]], stdin=nothing, stdout=nothing, stderr=nothing, timeout=60)
    except (OSError, subprocess.SubprocessError):
        return False
    return ran.returncode == 0


def said_by(script, has_ended):
    """Runs a script with a copy of what it needs, once that is built: what it says, and whether it passed."""
    binary = REFUSALS if os.path.basename(script) == "refusals.py" else PROGRAM
    while not is_built(binary):
        if has_ended.wait(PAUSE) and not is_built(binary):
            return f"{script} was not run: {os.path.relpath(binary, ROOT)} was not built\n", False
    has_ended.wait(PAUSE)
    with tempfile.TemporaryDirectory() as folder:
        how = {"stdin": subprocess.DEVNULL, "stdout": subprocess.PIPE, "stderr": subprocess.STDOUT, "errors": "replace"}
        ran = subprocess.run([os.path.join(ROOT, script), shutil.copy(binary, folder)], **how)
    return ran.stdout + (f"{script} FAILED with status {ran.returncode}\n" if ran.returncode else ""), ran.returncode == 0


def number_in(path, pattern=r"(\d+)"):
    """The first number of a file that fits, or nothing."""
    try:
        with open(path, encoding="utf-8", errors="replace") as file:
            found = re.search(pattern, file.read())
    except OSError:
        return None
    return int(found[1]) if found else None


def free():
    """Free memory in bytes, under the limit of a control group too."""
    left = [1024 * (number_in("/proc/meminfo", r"MemAvailable:\s+(\d+)") or 0)]
    for limit, held in GROUPS:
        limit, held = number_in(limit), number_in(held)
        if limit and held is not None:
            left.append(limit - held)
    return min(left)


def processors():
    """The processors that this process may use, or fewer by the quota of its control group."""
    found = len(os.sched_getaffinity(0))
    for (file, quota), (part, period) in QUOTAS:
        quota, period = number_in(file, quota), number_in(part, period)
        if quota and period:
            found = min(found, max(quota // period, 1))
    return found


def side_by_side():
    """The environment of `rt ci`: how many steps it may take side by side, where that is more than it would take itself."""
    lanes = min(processors(), free() // STEP)
    return {**({"RT_JOBS": str(lanes)} if lanes > 2 else {}), **os.environ}


def counted(line, failed):
    """The last line, with the scripts that failed."""
    found = re.fullmatch(r"(\d+) passed, (\d+) failed\n?", line)
    return f"{found[1]} passed, {int(found[2]) + failed} failed\n" if found and failed else line


def took(began, used):
    """What `rt ci` took since then, with all that it started."""
    minutes, seconds = (time.monotonic() - began) / 60, used.ru_utime + used.ru_stime
    return f"rt ci took {minutes:.0f} minutes and {seconds:,.0f} processor seconds, with {processors()} processors\n"


def main():
    rt = os.environ.get("RT", "rt")
    if not shutil.which(rt):
        sys.exit(f"tests/gate.py needs {rt}, the command of the Rattle kit, which isn't on the path.")
    compiler.compiler()  # ends here where there is none, and not after the proofs
    os.chdir(ROOT)
    for binary in filter(os.path.lexists, LOOKS):
        os.remove(binary)
    began, has_ended, said = time.monotonic(), threading.Event(), []
    ci = subprocess.Popen([rt, "ci"], stdout=subprocess.PIPE, errors="replace", env=side_by_side())
    scripts = threading.Thread(target=lambda: said.extend(said_by(script, has_ended) for script in sys.argv[1:]), daemon=True)
    scripts.start()
    last = ""
    for line in ci.stdout:
        print(last, end="", flush=True)
        last = line
    _, status, used = os.wait4(ci.pid, 0)
    spent = took(began, used)
    has_ended.set()
    scripts.join()
    for script, (text, _) in zip(sys.argv[1:], said):
        print(f"== {script}\n{text}", end="")
    failed = len(sys.argv[1:]) - sum(passed for _, passed in said)
    print(spent, counted(last, failed), sep="", end="", flush=True)
    sys.exit(1 if status or failed else 0)


if __name__ == "__main__":
    main()
