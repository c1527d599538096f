"""Talks with the program over pipes: each command is written when the reply to the one before it was read, so that a reply that stays
back is a talk that doesn't go on.
"""

import os
import sys

import cases
import harness
from harness import Talk

SERVER = os.path.join(harness.ROOT, "examples", "server.trace")
LONG = "x" * 5000
# What is said, with the reply to it, which comes before more is said; "" where none may come; a reply to None comes after the end.
EDITS = {
    "a command in pieces": (1, [("cou", ""), ("nt", ""), ("\n", "12\n")]),
    "comments have no reply, and two commands at once have two": (0, [("# note\n\n", ""), ("count\ndelete 9\n", "12\nok 11\n")]),
    "a line that is too long is refused as soon as it is, and once": (1, [("x" * 1056, ""), ("x", "refused E1\n"), (LONG, ""), ("\ncount\n", "12\n")]),
    "a last command without line feed": (1, [("count", ""), (None, "12\n")]),
}
EXEC_IN_2 = (
    ("insert 2 100 read(5) RET 1", "ok 2"),
    ("report", "findings 0"),
    ('insert 2 100 execve("/bin/x") RET 0', "ok 3"),
    ("report", "3 100 read closed 5\nfindings 1"),
    ("insert 2 100 fcntl(5,F_SETFD,0) RET 0", "ok 4"),
    ("report", "findings 0"),
    ("replace 3 100 closefrom(5) RET 0", "ok 4"),
    ("report", "4 100 read closed 5\nfindings 1"),
)
MARKERS = (
    ("insert 3 100 @uses(3,CAP_EVENT|CAP_READ)", "ok 3"),
    ("show 3", "100 @uses(3,CAP_READ|CAP_EVENT)"),
    ("report", "3 100 @uses missing 3 CAP_EVENT\nfindings 1"),
    ("replace 3 100 @refused(3,CAP_EVENT)", "ok 3"),
    ("report", "findings 0"),
    ("insert 4 100 @global()", "ok 4"),
    ("report", "findings 0"),
    ("insert 3 100 cap_enter() RET 0", "ok 5"),
    ("report", "5 100 @global forbidden\nfindings 1"),
    ("insert 1 100 @uses(3)", "refused E4"),
)
BEFORE_2 = "# process 100 before line 2\ninsert 2 100 cap_rights_limit(0,CAP_READ) RET 0\ninsert 3 100 cap_enter() RET 0\n"
BEFORE_1 = "# process 100 before line 1\n# line 1 is where process 100 begins\n"
# The line before which limits are asked for, of a trace on standard input, and how that talk ends and goes.
LIMITS = {
    "limits come after the end of the trace": ("2", 0, [("100 @start(0)\n100 read(0) RET 5\n", ""), (None, BEFORE_2)]),
    "and so where the process begins": ("1", 0, [("100 @start(0)\n", ""), (None, BEFORE_1)]),
    "a refused line ends limits before the trace's end": ("1", 2, [("100 @start(0)\n100 read(x) RET 5", ""), ("\n", "refused E4 line 2\n")]),
}
STARTS = (
    ((b"100 out closed\n100 in", b" closed\n"), "refused E3 start line 2\n"),
    ((b"x" * 1024, b"x"), "refused E1 start line 1\n"),
)
CAUSES = (
    ("examples/server.trace 9", "4 201 cap_rights_limit(4,CAP_READ|CAP_WRITE) RET 0\n"),
    (
        "examples/launcher.trace 8 --profile 2",
        '2 200 open("/var/log/helper.log",O_WRONLY|O_APPEND) RET 3\n3 200 cap_rights_limit(3,CAP_WRITE) RET 0\n5 200 fork() RET 201\n',
    ),
)


class Talks(harness.Test):
    def talk(self, name, words, turns, status):
        """A talk, and the status at its end."""
        harness.tried["talks"] += 1
        with self.subTest(name), Talk("capcheck", *words) as talk:
            for said, reply in turns:
                if said is None:
                    talk.close()
                elif said:
                    talk.say(said)
                if reply:
                    talk.hear(reply)
                else:
                    talk.hear_nothing()
                harness.tried["turns of talks"] += 1
            if status != 2:  # what is refused ends it by itself
                talk.close()
            talk.ends(status)

    def session(self, name, words, trace, turns, status=1):
        self.talk(name, ["edit", harness.save("trace", trace), *words], [(command + "\n", reply + "\n") for command, reply in turns], status)

    def test_page(self):
        """The session of docs/SCRIPTS.md."""
        turns = []
        for line in cases.lines_shown("docs/SCRIPTS.md", "server"):
            turns += [[line[2:] + "\n", ""]] if line.startswith("> ") else []
            turns[-1][1] += "" if line.startswith("> ") else line + "\n"
        self.assertGreater(len(turns), 9)
        self.talk("the session of docs/SCRIPTS.md", ["edit", SERVER], turns, 0)

    def test_edits(self):
        for name, (status, turns) in EDITS.items():
            self.talk(name, ["edit", SERVER], turns, status)

    def test_sessions(self):
        self.session("a session in profile 2", ["--profile", "2"], '100 open("a",O_RDONLY|O_CLOEXEC) RET 5\n', EXEC_IN_2)
        self.session("a session with markers of needs", [], "100 @start(3)\n100 cap_rights_limit(3,CAP_READ) RET 0\n", MARKERS)

    def test_limits(self):
        for name, (position, status, turns) in LIMITS.items():
            self.talk(name, ["limits", "-", position], turns, status)

    def test_refused_trace(self):
        """It ends the program before a script comes."""
        harness.tried["talks"] += 1
        with Talk("capcheck", "edit", harness.save("refused", "100 @start()\n100 read(x) RET 1\n")) as talk:
            talk.hear("refused E4 line 2\n")
            talk.ends(2)

    def test_listener_who_leaves(self):
        harness.tried["talks"] += 1
        with Talk("capcheck", "edit", SERVER) as talk:
            talk.process.stdout.close()
            talk.say("count\n")
            talk.ends(3, "capcheck: E12\n")

    def test_refused_start(self):
        """It is answered before its end comes, and before a trace comes."""
        os.mkfifo("start")
        start = os.open("start", os.O_RDWR)  # to write too: so neither side waits for the other, and no end comes
        for (first, second), reply in STARTS:
            harness.tried["talks"] += 1
            with Talk("capcheck", "check", "--start", "start") as talk:
                os.write(start, first)
                talk.hear_nothing()
                os.write(start, second)
                talk.hear(reply)
                talk.ends(2)
        os.close(start)

    def test_causes(self):
        """A tool that keeps the program at the end of two pipes."""
        for words, causes in CAUSES:
            got = harness.run([sys.executable, "examples/causes.py", harness.program(), *words.split()], cwd=harness.ROOT)
            self.same(f"examples/causes.py {words}", (0, causes), got[:2], "talks")
