"""Whether what lacks something that it needs fails, with a sentence that names it.

Scripts, and make, run with a PATH from which python3, bash, cc, rt, git or valgrind is taken away. Without `cc` a test uses the
clang of the kit that `rt` is in, and passes; without both it fails. And whether `make run` asks `rt` for no proof, shows a report,
and fails where there is none: the program answers in the place of `rt try`.
"""

import os
import re
import sys
import tempfile
from unittest import mock

import compiler
import harness
from harness import ROOT

SCRIPTS = ("contrib", "examples", "packaging", "tests", "tools", "bench", ".ci")  # the folders that they are in
SOURCES = ("refuse", "refuse_each", "fail_reads")
# Commands that need something, where P is the program.
COMPILED = """tests/run.py P
tests/run.py P -k out_of_memory
tests/run.py P -k allocation_counts
tests/run.py P -k hostile_input
tests/refusals.py P
tests/refusals.py --tests P""".split("\n")
PROVERS = """tests/gate.py
tests/wrong_bodies.py
tests/wrong_bodies.py --compile
tools/build_unproved.py OUT
packaging/dist.py OUT
bench/parse_times.py
bench/explain_times.py P
bench/summary_times.py
bench/tree_times.py""".split("\n")
COUNTERS = """bench/edit_instructions.py P
bench/command_instructions.py P
bench/fork_instructions.py P
bench/report_instructions.py P""".split("\n")
# What says how it is called, where it is handed nothing.
NEEDS_WORDS = {"tests/run.py": "PROGRAM", "tests/refusals.py": "tests/refusals.py BINARY"}
OF_PYTHON = ("run", "-B capcheck", "refusals", "test", "wrong", "dist")
TARGETS = {"python3": OF_PYTHON, "bash": ["test"], "git": ["wrong", "dist"], "cc": ["dist"], "rt": OF_PYTHON}
# In the place of `rt`: what it is asked for is answered by the program, or, as code that `rt try` refuses, by status 1 alone.
TRIES = '#!/bin/sh\ntest "$*" = "try -- check" || exit 9\nexec {} check\n'
REFUSES = "#!/bin/sh\nexit 1\n"
SAYS = r"capcheck check .*: checked as it runs, .* `make` proves it\n"
# The trace of `make run`, with its text where it is made, its status and its report.
TRACES = (
    ("examples/filter.trace", None, 0, r"8 100 write missing 0 CAP_WRITE\n11 100 read closed 0\nfindings 2\n"),
    ("a trace", "100 @start(0)\n", 0, r"findings 0\n"),
    ("refused", "100 @start(0)\nx\n", 2, r"refused E3 line 2\n"),
    ("nothing", None, 2, ""),
)


def path_without(*lacking):
    """A PATH with what this process's has, but for these programs."""
    made, found = tempfile.mkdtemp(dir="."), {"python3": sys.executable}
    for place in filter(os.path.isdir, os.environ["PATH"].split(os.pathsep)):
        for name in os.listdir(place):
            found.setdefault(name, os.path.abspath(os.path.join(place, name)))
    for name in set(found) - set(lacking):
        os.symlink(found[name], os.path.join(made, name))
    return os.path.abspath(made)


def scripts():
    """Each script that python3 or bash runs, and which of them."""
    for path in (os.path.join(folder, name) for folder in SCRIPTS for name in sorted(os.listdir(os.path.join(ROOT, folder)))):
        if os.path.isfile(whole := os.path.join(ROOT, path)) and os.access(whole, os.X_OK):
            if found := re.match(r"#!/usr/bin/env (python3|bash)\n", harness.text_of(whole)):
                yield f"./{path}", found[1]


def executable(name, text):
    os.chmod(harness.save(name, text), 0o755)
    return os.path.abspath(name)


class Missing(harness.Test):
    """What both classes below run."""

    of_program = False

    def ends(self, line, path, status, pattern, stream=2, rt="rt"):
        """That a command ends with this status, and with what fits this pattern on standard error, or on standard output."""
        words = line if isinstance(line, list) else [harness.program() if word == "P" else word for word in line.split()]
        env = {name: value for name, value in os.environ.items() if not name.startswith(("MAKE", "MFLAGS"))}
        got = harness.run(words, encoding="utf-8", stdin=harness.DEVNULL, cwd=ROOT, env={**env, "PATH": path, "RT": rt}, timeout=60)
        fits = re.fullmatch(pattern, got[stream])
        self.same(" ".join(words), (status, got[stream] if fits else pattern), (got.status, got[stream]), "commands that lack something")


class MissingPrograms(Missing):
    def test_scripts(self):
        paths = {tool: path_without(tool) for tool in ("python3", "bash")}
        for script, tool in scripts():
            self.ends(script, paths[tool], 127, rf".*env: .{tool}.: .*\n")

    def test_tools(self):
        for tool, needy in (("rt", PROVERS), ("valgrind", COUNTERS)):
            path = path_without(tool)
            for line in needy:
                self.ends(line, path, 1, rf"{line.split()[0]} needs .*\b{tool}\b.*\n")

    def test_targets(self):
        for tool, targets in TARGETS.items():
            path = path_without(tool)
            for target in targets:
                wanted = rf"make {target.split()[-1]} needs {tool}, .*\nmake: .*\n"
                self.ends(f"make {target}", path, 2, wanted, rt="rt" if tool == "rt" else "true")

    def test_without_words(self):
        for script, wanted in NEEDS_WORDS.items():
            self.ends(script, os.environ["PATH"], 2, rf"(?s).*\b{wanted}\b.*")

    def test_make_run(self):
        """`make run` asks for no proof."""
        tries, refuses = executable("tries", TRIES.format(harness.program())), executable("refuses", REFUSES)
        for name, text, status, report in TRACES:
            trace = os.path.abspath(harness.save(name, text)) if text else name
            self.ends(["make", "run", f"TRACE={trace}"], os.environ["PATH"], status, SAYS + report, stream=1, rt=tries)
        self.ends("make run", os.environ["PATH"], 2, SAYS, stream=1, rt=refuses)


class MissingCompiler(Missing):
    def test_without_compiler(self):
        """Tests without `cc` use the kit's clang, and without that they say so."""
        path, rt = path_without("cc"), os.environ.get("RT", "rt")
        self.ends("tests/run.py P -k allocation_counts", path, 0, "", rt=rt)
        with mock.patch.dict(os.environ, PATH=path):
            for name in SOURCES:
                harness.tried["libraries by the kit's compiler"] += os.path.exists(compiler.library(name, "."))
        path = path_without("cc", "rt")
        for line in COMPILED:
            self.ends(line, path, 1, rf"{line.split()[0]} needs a C compiler: .*\n")
