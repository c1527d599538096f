"""Each allocation of the program refused in turn, by command lines of each kind.

A run that lacks one allocation ends like the run that lacks none, or with `capcheck: E9` and what it wrote before. Of a script
at most one command is replied to with `refused E9`, and the others as if it had not been there.
"""

import harness
import reference
import refusals

OUT_OF_MEMORY = "capcheck: E9\n"
SCRIPT = """delete 2
show 2
insert 2 100 openat(3,"a/b",O_RDONLY|O_CREAT) RET 5
insert 3 100 cap_rights_limit(5,CAP_READ|CAP_SEEK) RET 0
replace 7 101 write(5) RET 1
report
replace 1 100 @start(0,1,2,3)
insert 6 101 @uses(5,CAP_EVENT|CAP_READ)
show 3
report 6 7
delete 9
count
insert 8 100 read(x) RET 1
report
"""
TRACE = """100 @start(0,3)
100 cap_rights_limit(3,CAP_READ) RET 0
100 fork() RET 101
100 close(3) RET 0
101 write(3) RET 1
"""
REFUSED = TRACE + "100 read(x) RET 1\n"
EXECS = """100 open("a",O_RDONLY|O_CLOEXEC) RET 5
100 execve("/bin/x") RET 0
100 closefrom(9) RET 0
100 read(5) RET 1
100 read(9) RET 1
"""
DENIED = """100 cap_rights_limit(3,CAP_READ) RET 0
100 renameat(3,"a",4,"b") RET -1 errno 93
101 cap_rights_limit(3,NONE) RET -1 errno 93
101 open("a",O_RDONLY) RET -1 errno 94
"""
USED = """100 @start(3)
100 cap_rights_limit(3,CAP_READ) RET 0
100 cap_enter() RET 0
100 @uses(3,CAP_EVENT)
100 @global()
100 @refused(3,CAP_EVENT|CAP_WRITE)
"""
START = "100 out closed 3=ALL\n101 in unknown 0=CAP_READ 40=unknown\n"
BAD_START = START + "102 out\n"
TEXTS = {
    "trace": TRACE, "refused": REFUSED, "script": SCRIPT, "execs": EXECS, "denied": DENIED, "used": USED, "start": START,
    "bad_start": BAD_START,
}  # fmt: skip
# The words of each run, and after "<" what it has on standard input.
RUNS = """
check < trace
check trace
check refused
check execs --profile 2
check execs --start start --profile 2
check execs --start bad_start
edit execs --profile 2
edit refused script
edit trace < script
edit trace script
explain trace 5
explain execs 5 --start start --profile 2
explain execs 5 --start bad_start
explain trace 6
explain refused 1
denials denied
denials < denied
denials denied --start start --profile 2
denials denied --start bad_start
denials refused
check used
explain used 4
explain used 6
denials used
limits used 1
limits used 2
limits trace 2
limits - 5 < trace
limits execs 2 --start start --profile 2
limits execs
limits execs --start bad_start
limits trace 6
limits refused
--help
edit --help
--version
check a b
edit
explain trace x
limits trace x
denials trace x
edit trace nofile
"""


def replies():
    """The answers to the script: first with ample memory; and where it runs out for the last check, or for one command."""
    out, status = reference.replies(TRACE, SCRIPT)
    yield status, out, ""
    yield 3, out, OUT_OF_MEMORY
    lines = SCRIPT.splitlines()
    for at, line in enumerate(lines):
        if line != "count" and "refused" not in reference.replies(TRACE, "\n".join(lines[: at + 1]))[0].splitlines()[-1]:
            out, status = reference.replies(TRACE, "\n".join(lines[:at] + ["undo"] + lines[at + 1 :]))
            yield status, out.replace("refused E10", "refused E9"), ""


class Refused(harness.Test):
    """What each class below runs."""

    is_long, loads = True, "refuse"

    def lacking(self, *commands):
        """Runs those that begin with one of these words."""
        for name, text in TEXTS.items():
            harness.save(name, text)
        for line in RUNS.strip().split("\n"):
            if line.split()[0] in commands:
                self.one(*line.partition(" < ")[::2])

    def one(self, line, given):
        rights = list(replies()) if line in ("edit trace", "edit trace script") else []
        number = 0
        for number, got in refusals.refused(["capcheck", *line.split()], TEXTS.get(given, ""), self.library):
            if number == 0:
                rights = rights or [got]
                self.same(line, rights[0], got, "command lines whose allocations are refused")
                rights.append((3, "", OUT_OF_MEMORY))
            else:
                self.same(f"{line} with allocation {number} refused", got if got in rights else rights[0], got, "refused allocations")
        self.assertGreater(number, 0, f"{line}: no allocation was refused")


class Check(Refused):
    def test_check(self):
        self.lacking("check", "--help", "--version")


class Edit(Refused):
    def test_edit(self):
        self.lacking("edit")


class Explain(Refused):
    def test_explain(self):
        self.lacking("explain", "denials")


class Limits(Refused):
    def test_limits(self):
        self.lacking("limits")
