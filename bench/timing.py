"""What all benches share: their arguments, traces and figures, runs of the program, timed and counted, and programs over crates of the
repository. Nothing else in bench/ starts a process.

A bench writes each figure on one line, `name value unit`, and what is for people after `# `. A name is that of what is measured, of
the trace, and of the figure. A time or a count that has `.to_check` beside it is compared with that of a check. So two programs, or
two states of the repository, are compared by a join of what a bench says of each:

    said() { "$@" | grep -v '^#' | LC_ALL=C sort; }
    said bench/check_times.py old/capcheck >old
    said bench/check_times.py ./capcheck >new
    LC_ALL=C join old new | awk '{ print $1, $2, $4, $3, ($2 ? $4 / $2 : "-") }'

shows the name of each figure, both values, their unit, and the second as a part of the first.
"""

import collections
import decimal
import io
import itertools
import os
import re
import resource
import shutil
import subprocess
import sys
import tempfile
import time

import traces

ROOT = os.path.dirname(os.path.dirname(os.path.abspath(__file__)))
# The traces of traces.py that are for profile 2.
IN_PROFILE_2 = ("execs", "turns")
# What reports the peak memory of a run, in KiB, where it is installed.
WEIGH = ("/usr/bin/time", "-f", "%M")
CALLGRIND = ("valgrind", "--tool=callgrind", f"--callgrind-out-file={os.devnull}")
# How the last line of a session's reply begins, but for a number alone.
ENDS = (b"ok ", b"refused", b"findings ", b"explained ", b"denials ", b"limits ")
# A trace: its name in traces.py, that in figures, its lines, the path of a file with them, and the words that have it read.
Trace = collections.namedtuple("Trace", "kind name lines path words")
# A run, or several: seconds by the clock, of the user and of the processor, peak memory in MB, and what was written to standard
# output and to standard error.
Run = collections.namedtuple("Run", "clock user processor memory said told")


def needs(*programs):
    """Ends where one of these isn't there."""
    for name in programs:
        if not shutil.which(name):
            what = f"{name}, the command of the Rattle kit" if name == "rt" else name
            sys.exit(f"bench/{os.path.basename(sys.argv[0])} needs {what}, which isn't there.")


def trace(kind, lines, folder, part):
    """The trace of this name, or the first lines of the file of this name, in a file that is written to a folder."""
    if kind in traces.TRACES:
        made = traces.TRACES[kind](lines // part)
    else:
        with open(kind, errors="surrogateescape") as given:
            made = [line.rstrip("\n") for line in itertools.islice(given, lines // part)]
    path = os.path.join(folder, "trace")
    traces.put(made, path)
    return Trace(kind, os.path.basename(kind), made, path, [path, *(["--profile", "2"] if kind in IN_PROFILE_2 else [])])


def bench(doc, measure, names=tuple(traces.TRACES), lines=1_000_000, parts=(1,), tools=(), built=None, others=None):
    """Hands to `measure` each trace that the command line asks for, and the program that it names, or one that is built, or both.

    The command line is [PROGRAM] [LINES [TRACE..]], with the program where `doc` says so. Each trace is measured at each of these parts
    of its lines, which its name then tells. `others` are what else can be named, with functions of a folder and the programs.
    """
    words, others = sys.argv[1:], others or {}
    programs = [os.path.abspath(words.pop(0)) for _ in words[:1] if ".py PROGRAM" in doc]
    asked = words[1:] or [*names, *others]
    known = all(name in traces.TRACES or name in others or os.path.isfile(name) for name in asked)
    if not known or not all(map(str.isdigit, words[:1])) or len(programs) != doc.count(".py PROGRAM"):
        sys.exit(doc.strip())
    needs(*tools, *(["rt"] if built else []))
    with tempfile.TemporaryDirectory() as folder:
        programs += [build(folder, *built)] if built else []
        for name, part in itertools.product(asked, parts):
            if name in others:
                others[name](folder, *programs)
                continue
            made = trace(name, int(words[0]) if words else lines, folder, part)
            remark(f"{name}: {len(made.lines):,} lines, {os.path.getsize(made.path) / 1e6:.1f} MB")
            measure(made._replace(name=f"{made.name}.{len(made.lines)}") if len(parts) > 1 else made, *programs)


def remark(text):
    """Writes something for people."""
    print(f"# {text}", flush=True)


def figure(name, value, unit, check=None):
    """Writes a figure, and its ratio to that of a check where that is given; or, for people, that it isn't known."""
    if value is None:
        return remark(f"{name}: unknown")
    text = str(value) if isinstance(value, int) else f"{decimal.Decimal(f'{value:.5g}'):f}"
    print(name.replace(" ", "_"), text, unit, flush=True)
    if check:
        figure(f"{name}.to_check", value / check, "ratio")


def run(command, given=os.devnull, says=False, weighed=False):
    """What one run took, with what it wrote to standard output if it `says` something. It must answer that nothing or that something
    was found. The processor seconds count other work on the machine less than those by the clock."""
    weighed = weighed and shutil.which(WEIGH[0])
    before = resource.getrusage(resource.RUSAGE_CHILDREN)
    with open(given, "rb") as stdin:
        begun = time.perf_counter()
        stdout = subprocess.PIPE if says else subprocess.DEVNULL
        done = subprocess.run([*(WEIGH if weighed else ()), *command], stdin=stdin, stdout=stdout, stderr=subprocess.PIPE, text=True)
        clock = time.perf_counter() - begun
    if done.returncode not in (0, 1):
        sys.exit(f"{' '.join(command)} ended with status {done.returncode}\n{done.stderr}")
    after = resource.getrusage(resource.RUSAGE_CHILDREN)
    user = after.ru_utime - before.ru_utime
    memory = int(done.stderr.split()[-1]) * 1024 / 1e6 if weighed else None
    return Run(clock, user, user + after.ru_stime - before.ru_stime, memory, done.stdout, done.stderr)


def in_turn(commands, rounds, **how):
    """What these commands, by their names, took each time: they run in turn, since machines are noisy."""
    runs = [{name: run(command, **how) for name, command in commands.items()} for _ in range(rounds)]
    return {name: Run(*zip(*(one[name] for one in runs))) for name in commands}


def streamed(command, given):
    """Each line that a run writes, as it comes, and the memory in MB that the run has in use then."""
    with open(given) as stdin, subprocess.Popen(command, stdin=stdin, stdout=subprocess.PIPE, text=True) as process:
        for line in process.stdout:
            with open(f"/proc/{process.pid}/status") as status:
                yield line, next((int(row.split()[1]) * 1024 / 1e6 for row in status if row.startswith("VmRSS:")), 0)


class Talk:
    """A session with a program that replies to each line."""

    def __init__(self, command):
        self.process = subprocess.Popen(command, stdin=subprocess.PIPE, stdout=subprocess.PIPE, stderr=subprocess.PIPE, bufsize=0)
        self.replies = io.BufferedReader(self.process.stdout, 1 << 20)

    def ask(self, *lines):
        """The milliseconds until the replies to these lines, asked in turn, are read."""
        begun = time.perf_counter()
        for line in lines:
            self.process.stdin.write(f"{line}\n".encode(errors="surrogateescape"))
            while b" " in (reply := self.replies.readline()) and not reply.startswith(ENDS):
                pass
            if not reply or reply.startswith(b"refused"):
                sys.exit(f"{line}: {reply.decode()}")
        return (time.perf_counter() - begun) * 1000

    def end(self):
        """What was written to standard error."""
        self.process.stdin.close()
        self.replies.read()
        told = self.process.stderr.read().decode()
        self.process.wait()
        return told


def collected(told):
    """The instructions that callgrind tells."""
    return int(re.search(r"Collected : (\d+)", told)[1])


def counted(command, *options):
    """The instructions of a run, or of what these options of callgrind say."""
    return collected(run([*CALLGRIND, *options, *command]).told)


def counted_each(command):
    """The instructions of a run, and those of each function."""
    with tempfile.NamedTemporaryFile() as out:
        total = counted(command, f"--callgrind-out-file={out.name}")
        listed = run(["callgrind_annotate", out.name], says=True).said
    each = collections.Counter()
    for count, name in re.findall(r"^ *([\d,]+) \([^)]*\) +\S*?:(\S[^\n]*?)(?: \[[^\n]*)?$", listed, re.M):
        each[name] += int(count.replace(",", ""))
    return total, each


def counted_steps(command, steps, before=()):
    """The instructions of a step of a session, which is some lines, by the mean of these, after others."""
    talk, steps = Talk([*CALLGRIND, "--instr-atstart=no", *command, "/dev/stdin"]), list(steps)
    talk.ask("count", *before)
    for state, lines in (("on", itertools.chain(*steps)), ("off", ())):
        run(["callgrind_control", "-i", state, str(talk.process.pid)])
        talk.ask(*lines)
    return collected(talk.end()) // len(steps)


def written(folder, name, uses, main):
    """The folder of a crate with this `main.rt`, beside copies of the crates that it uses and those below, as `make` left them."""
    with open(os.path.join(ROOT, "crates.txt")) as given:
        rows = [row for row in given if not row.startswith("#")]
    needed = set(uses.split())
    for row in reversed(rows):
        crate, _, below = row.partition(":")
        needed.update(below.split() if crate in needed else [])
    rows = [row for row in rows if row.split(":")[0] in needed]
    left_out = shutil.ignore_patterns("incremental", "must-fail")
    for crate in (os.path.join("crates", row.split(":")[0]) for row in rows):
        shutil.copytree(os.path.join(ROOT, crate), os.path.join(folder, crate), ignore=left_out)
    crate = os.path.join(folder, "crates", name)
    os.makedirs(os.path.join(crate, "src"))
    texts = {"crates.txt": "".join([*rows, f"{name}: {uses}\n"]), "HANDLES": "Handles allowed: none.\n", f"crates/{name}/src/main.rt": main}
    for path, text in texts.items():
        with open(os.path.join(folder, path), "w") as out:
            out.write(text)
    return crate


def build(folder, name, uses, main):
    """The path of a program in Rattle over crates of the repository, which `rt run` proves and builds in a folder."""
    crate = written(folder, name, uses, main)
    done = subprocess.run(["rt", "run"], cwd=crate, stdin=subprocess.DEVNULL, capture_output=True, text=True)
    program = os.path.join(crate, "out", name)
    if not os.path.exists(program):
        sys.exit(done.stdout + done.stderr)
    return program


def answer(crate, words):
    """What the program of a crate that isn't proved writes, as `rt try` runs it with these words."""
    return subprocess.run(["rt", "try", "--", *words], cwd=crate, stdin=subprocess.DEVNULL, capture_output=True, text=True).stdout
