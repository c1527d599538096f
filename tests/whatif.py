"""Sessions with contrib/whatif.py at a pseudo-terminal. Those in cases/terminal/whatif.md and in the manual page are text; keys,
Ctrl-C, Tab and history are tried here. Scripts are cases (cases/whatif.md).

What must be seen was worked out by hand from docs/SCRIPTS.md and docs/RULES.md. Each wait ends after a time. Where Python has no
readline, Tab, history and pasted lines aren't tried, which is said.
"""

import importlib.machinery
import importlib.util
import os
import re
import signal
import sys
import time

import cases
import harness

SERVER, ONE = os.path.join(harness.ROOT, "examples", "server.trace"), "12 lines, 1 finding> "
PROMPT = re.compile(r"([0-9,]+ lines?, [0-9?,]+ findings?> )(.*)")
CTRL_A, CTRL_C, CTRL_D, CTRL_K, CTRL_P, CTRL_V = (chr(ord(letter) & 31) for letter in "ACDKPV")
LACKS = "line 9, 201 shutdown: it succeeded, and descriptor 4 lacks CAP_SHUTDOWN (missing)"
COMPLETED = (
    ("expl", "explain "), ("und", "undo"), ("wri", "write"), ("lim", "limits "), ("den", "denials"), ("help expla", "help explain"),
    ("insert 1 100 getpeern", "insert 1 100 getpeername("), ("insert 1 100 @for", "insert 1 100 @foreign("), ("insert 1 100 @us", "insert 1 100 @uses("),
    ("insert 1 100 @uses(3,CAP_SHU", "insert 1 100 @uses(3,CAP_SHUTDOWN"),
    ("insert 1 100 @refused(3,CAP_READ|CAP_GETSOCKN", "insert 1 100 @refused(3,CAP_READ|CAP_GETSOCKNAME"),
    ("insert 1 100 cap_rights_limit(3,CAP_SHU", "insert 1 100 cap_rights_limit(3,CAP_SHUTDOWN"),
    ("replace 1 100 cap_rights_limit(3,CAP_READ|CAP_GETSOCKN", "replace 1 100 cap_rights_limit(3,CAP_READ|CAP_GETSOCKNAME"),
    ("replace 4 ", "replace 4 201 cap_rights_limit(4,CAP_READ|CAP_WRITE) RET 0"), ("replace 9 ", "replace 9 201 shutdown(4) RET 0"),
    ("write folder/tab-te", "write folder/tab-test"),
)  # fmt: skip
SLOW = """#!/usr/bin/env python3
import sys, time
if sys.argv[1] == "edit":
    for command in sys.stdin:
        verb, *words = command.split()
        if verb == "show":
            time.sleep(0.002)
        print({"count": "100000", "report": "findings 0", "show": f"100 read({words and words[0]}) RET 1"}[verb], flush=True)
"""


def tool():
    """contrib/whatif.py, as a module."""
    sys.dont_write_bytecode = True
    loader = importlib.machinery.SourceFileLoader("contrib_whatif", os.path.join(harness.ROOT, "contrib", "whatif.py"))
    module = importlib.util.module_from_spec(importlib.util.spec_from_loader("contrib_whatif", loader))
    loader.exec_module(module)
    return module


def program(name, text):
    """The path of a program, which stands in for capcheck."""
    os.chmod(harness.save(name, text), 0o755)
    return os.path.abspath(name)


class Session(harness.Terminal):
    """whatif at a pseudo-terminal. What is seen is compared by a test."""

    def __init__(self, test, name, *words, **environment):
        super().__init__(["whatif", *words], {**test.environment(), **environment})
        self.seen_by = lambda what, wanted, got: test.seen(f"{name}: {what}", wanted, got)

    def says(self, typed, wanted, prompt):
        """Types a line, and compares what is printed up to the next prompt."""
        self.type(typed + "\n")
        self.until("\n")
        try:
            self.seen_by(typed, wanted, self.until(prompt))
        except harness.Lost:
            self.seen_by(typed, wanted + prompt, self.seen)
            raise

    def breaks(self, prompt):
        """Types Ctrl-C, and waits for a new prompt. One that comes just before Python waits for a key is seen with that key."""
        self.type(CTRL_C)
        try:
            said = self.until(prompt, 2)
        except harness.Lost:
            self.type("\n")
            said = self.until(prompt)
        self.seen_by("Ctrl-C", "", said.replace("^C", "").strip())

    def leaves(self, status, typed=CTRL_D, said="\n"):
        """Types this at a prompt, and compares the end."""
        self.type(typed)
        self.seen_by("the end", (status, said), self.ends())


class Sessions(harness.Test):
    """What sessions have in common."""

    def environment(self):
        here = {"HOME": self.folder, "XDG_STATE_HOME": os.path.join(self.folder, "state")}
        return {**os.environ, "TERM": "dumb", "INPUTRC": "/dev/null", "LC_ALL": "C.UTF-8", **here}

    def seen(self, what, wanted, got):
        self.same(what, wanted, got, "comparisons with what whatif says")

    def begun(self, name, *words, prompt=ONE, **environment):
        """A session at its first prompt."""
        session = Session(self, name, *words or [SERVER], **environment)
        session.until(prompt)
        return session

    def session(self, name, lines, *words):
        """Holds a session, and a script of the same, against what must be seen: each prompt with what is typed, what is printed below
        it, and `status N` last where that isn't 0."""
        turns, status = [["", "", ""]], int(lines.pop()[7:]) if lines[-1].startswith("status ") else 0
        for line in lines:
            found = PROMPT.fullmatch(line)
            turns += [[*found.groups(), ""]] if found else []
            turns[-1][2] += "" if found else f"{line}\n"
        with Session(self, name, *words) as terminal:
            self.seen(f"{name}: greeting", turns[0][2], terminal.until(turns[1][0]))
            for (_, typed, printed), (prompt, _, _) in zip(turns[1:], turns[2:]):
                terminal.says(typed, printed, prompt)
            last = turns[-1][1] + "\n"
            terminal.leaves(status, *([] if last == "^D\n" else [last, last]))
        given = "".join(typed + "\n" for _, typed, _ in turns[1:] if typed != "^D")
        wanted = harness.Answer(status, "".join(printed for _, _, printed in turns[1:]), "")
        self.seen(f"{name}, as a script", wanted, harness.run(["whatif", *words], given, "utf-8", env=self.environment()))
        harness.tried["sessions of whatif as text"] += 1


class Texts(Sessions):
    """Sessions as text."""

    def test_cases(self):
        for heading, blocks in cases.sections(os.path.join(harness.HERE, "cases", "terminal", "whatif.md")):
            for block in blocks:
                if block.words[0] != "terminal":
                    harness.save(block.words[0], block.file({}))
            for block in blocks:
                if block.words[0] == "terminal":
                    lines = [block.text(line, {}).encode("latin1").decode() for line in block.lines]
                    self.session(heading, lines, *(word for word in block.words[1:] if word != "escaped"))

    def test_manual(self):
        """The session in the manual page."""
        page = harness.text_of(f"{harness.ROOT}/docs/capcheck-whatif.1")
        lines = re.search(r"\n\$ capcheck-whatif server\.trace\n(.*?)\n\.Ed", page, re.S)[1].split("\n")
        self.seen("the manual's commands", 3, sum(PROMPT.fullmatch(line) is not None for line in lines))
        harness.save("server.trace", harness.text_of(SERVER))
        self.session("the manual", lines + [f"{ONE}^D", "status 1"], "server.trace")

    def test_names(self):
        """The names that Tab knows are those of the documents."""
        whatif, text = tool(), harness.text_of(f"{harness.ROOT}/docs/FORMAT.md")
        calls = re.search(r"\n## Calls\n(.*?)\n\nAny other name", text, re.S)[1]
        of_format = set(re.findall(r"\n\| `(@[a-z]+)\(", text))
        for form, _, listed in (row.partition(" | ") for row in calls.split("\n")):
            listed = re.findall(r"`([a-z_][a-z0-9_]*)`", listed) if "`name(" in form else []
            of_format.update(listed or re.findall(r"`([a-z_0-9]+)\(", form))
        self.seen("calls", sorted(of_format), sorted(whatif.FORM_OF))
        rights = re.findall(r'codes "(CAP_[A-Z_]+)"', harness.text_of(f"{harness.ROOT}/crates/cap_rights/specs/Names.antt"))
        self.seen("rights", sorted(["ALL", "NONE", *rights]), sorted(whatif.RIGHTS))
        for listed in whatif.FORMS.values():
            self.seen("listed once", sorted(set(listed.split())), sorted(listed.split()))

    def test_what_limits_prints_can_be_given_back(self):
        trace = f"{harness.ROOT}/examples/digest.trace"
        for words in (["limits", "5"], ["limits"], ["limits", "2"], ["denials"]):
            printed = harness.capcheck(words[0], trace, *words[1:]).out
            self.seen(words, (0, printed, ""), harness.run(["whatif", trace], " ".join(words) + "\n"))
            inserts = [line.split(" ")[1] for line in printed.splitlines() if line.startswith("insert ")]
            wanted = "".join(f"inserted line {at}: {count} lines, 0 findings\n" for count, at in enumerate(inserts, 16))
            self.seen(f"what {words} printed", (0, wanted, ""), harness.run(["whatif", trace], printed if words[0] == "limits" else ""))

    def test_a_reader_who_leaves(self):
        reading, writing = os.pipe()
        os.close(reading)
        self.seen("a reader who leaves", (3, ""), harness.run(["whatif", SERVER], "print\nreport\n", stdout=writing)[::2])
        os.close(writing)


class Keys(Sessions):
    """Keys that are typed."""

    is_long = True

    def has_readline(self):
        if not tool().readline:
            harness.left_out.append("Tab, history and pasted lines of whatif: Python has no readline here")
        return tool().readline

    def test_keys(self):
        with self.begun("keys") as terminal:
            terminal.type("delete 9")
            terminal.until("delete 9")
            terminal.breaks(ONE)
            terminal.says("show 9", "201 shutdown(4) RET 0\n", ONE)
            for _ in range(20):
                terminal.breaks(ONE)
            terminal.says("delete 9", f"deleted line 9: 11 lines, 0 findings\ngone: {LACKS}\n", "11 lines, 0 findings> ")
            terminal.leaves(0)

    def test_pasted(self):
        """Several lines in one: each is a command, and has its reply. Ctrl-V puts the next key into the line."""
        if self.has_readline():
            with self.begun("pasted lines") as terminal:
                terminal.type(f"delete 12{CTRL_V}\ndelete 11{CTRL_V}\n{CTRL_V}\nshow 1\n")
                terminal.until("\ndeleted line 12: 11 lines, 1 finding\ndeleted line 11: 10 lines, 1 finding\n200 @start(0,1,2,3)\n10 lines, 1 finding> ")
                terminal.says("show 2", "200 accept(3) RET 4\n", "10 lines, 1 finding> ")
                terminal.leaves(1)

    def test_completion(self):
        if not self.has_readline():
            return
        harness.save("folder/tab-test", "")
        with self.begun("completion") as terminal:
            for typed, wanted in COMPLETED:
                terminal.type(typed + "\t")
                terminal.until(wanted)
                self.seen("completion: " + typed, "", terminal.seen)
                terminal.breaks(ONE)
            for typed in ("replace 99 ", "replace x ", "show "):
                terminal.type(typed + "\t#")
                terminal.until(typed + "#")
                terminal.breaks(ONE)
            terminal.type("replace 9 \t" + CTRL_A + CTRL_K + "count\n")
            terminal.until("\n12 lines, 1 finding\n" + ONE)
            terminal.leaves(1)

    def test_history(self):
        """What was typed is there in the same session and in the next, and nothing fails where it can't be kept."""
        if not self.has_readline():
            return
        for name, typed, leaving in (("history", CTRL_P, ["quit\n", "quit\n"]), ("the next session", CTRL_P * 2, [])):
            with self.begun(name) as terminal:
                if leaving:
                    terminal.says("show 12", "201 @exit()\n", ONE)
                terminal.type(typed + "\n")
                terminal.until("show 12")
                terminal.until("201 @exit()\n" + ONE)
                terminal.leaves(1, *leaving)
            if leaving:
                self.seen("its file ends so", "quit", harness.text_of("state/capcheck/whatif_history").splitlines()[-1])
        os.makedirs("hostile/capcheck/whatif_history")
        for place in ("/dev/null/state", os.path.abspath("hostile"), "relative"):
            with self.begun("history in " + place, XDG_STATE_HOME=place) as terminal:
                terminal.says("show 12", "201 @exit()\n", ONE)
                terminal.leaves(1)
        self.seen("nothing is left in a relative folder", False, os.path.exists("relative"))

    def test_without_readline(self):
        harness.save("bare/readline.py", "raise ImportError\n")
        with self.begun("without readline", PYTHONPATH=os.path.abspath("bare"), PYTHONDONTWRITEBYTECODE="1") as terminal:
            terminal.says("show 9", "201 shutdown(4) RET 0\n", ONE)
            terminal.type("delete 9")
            terminal.until("delete 9")
            terminal.breaks(ONE)
            terminal.says("show 9", "201 shutdown(4) RET 0\n", ONE)
            terminal.leaves(1)


class Programs(Sessions):
    """A capcheck that is slow, or that ends."""

    is_long = True

    def test_interrupted(self):
        """Ctrl-C while a command is worked through: it stops, and later replies are those to later commands."""
        prompt = "100,000 lines, 0 findings> "
        finds = ["find read\n"] * 3 + [f"find read{CTRL_V}\ninsert 1 x\n"] * bool(tool().readline)  # the last one as if it was pasted
        with self.begun("an interrupted find", "--capcheck", program("slow", SLOW), SERVER, prompt=prompt) as terminal:
            for typed in finds:
                terminal.type(typed)
                terminal.until("100 read(3) RET 1\n")
                terminal.type(CTRL_C)
                terminal.until("stopped\n" + prompt)
                terminal.says("show 99999", "100 read(99999) RET 1\n", prompt)
                terminal.says("print 40000 40001", "40000  100 read(40000) RET 1\n40001  100 read(40001) RET 1\n", prompt)
            terminal.leaves(0)

    def test_interrupted_loading(self):
        """Ctrl-C while the trace is loaded. One that comes while Python starts the program may be lost."""
        stuck, end = program("stuck", "#!/bin/sh\n: > begun\nexec sleep 1000\n"), time.monotonic() + harness.PATIENCE
        with Session(self, "Ctrl-C while the trace is loaded", "--capcheck", stuck, SERVER) as terminal:
            while not os.path.exists("begun") and time.monotonic() < end:
                time.sleep(0.05)
            time.sleep(0.2)
            while time.monotonic() < end and not os.waitid(os.P_PID, terminal.pid, os.WEXITED | os.WNOHANG | os.WNOWAIT):
                terminal.type(CTRL_C)
                time.sleep(1)
            self.seen("Ctrl-C while the trace is loaded", 130, terminal.ends()[0])

    def test_dying(self):
        """capcheck ends in the middle of a session."""
        wrapper = program("wrapper", f'#!/bin/sh\necho $$ > pid\nexec "{harness.program()}" "$@"\n')
        for typed in ("delete 9", "report", "show 3", "print", "undo"):
            with self.begun("dying: " + typed, "--capcheck", wrapper, SERVER) as terminal:
                terminal.says("delete 12", "deleted line 12: 11 lines, 1 finding\n", "11 lines, 1 finding> ")
                os.kill(int(harness.text_of("pid")), signal.SIGKILL)
                terminal.type(typed + "\n")
                terminal.until("whatif.py: capcheck has ended: signal 9\n")
                self.seen(f"dying: {typed}: status", 3, terminal.ends()[0])
