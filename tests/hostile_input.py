"""Hostile input, and devices that fail.

Each prefix of each worked line, and each worked line with one byte replaced, is read or refused as the second reading in
reference.py says, and what is shown of a line that was read is read as the same line. The output fails after each of its bytes,
and the input at each of its reads: what was written is then a prefix of the right answer. Then come files and pipes that no
trace is made of, a hundred sessions side by side, and limits of memory from far too small to ample.
"""

import collections
import concurrent.futures
import contextlib
import functools
import itertools
import os
import re
import resource
import signal

import harness
import reference
from harness import capcheck, save

SPOILS = "\x00\xff()\"\\|"
LONGEST = "100 foo(" + "x" * 1009 + ") RET 0"  # 1,024 bytes
LINES = """100 @start(0,3)
100 @start()
100 @exit()
100 @foreign(9)
100 @uses(3,CAP_PREAD|CAP_EVENT)
100 @uses(1048575,NONE)
100 @uses(3,CAP_SEEK_TELL)
100 @refused(5,ALL)
100 @refused(5,CAP_EVENT|CAP_READ)
100 @global()
100 cap_rights_limit(0,CAP_READ) RET 0
100 cap_rights_limit(3,CAP_LOOKUP|CAP_RENAMEAT_SOURCE) RET 0
100 cap_rights_limit(3,CAP_WRITE|CAP_PREAD|CAP_READ) RET 0
100 cap_rights_limit(3,CAP_SEEK_TELL) RET 0
100 cap_rights_limit(3,ALL) RET 0
100 cap_rights_limit(3,NONE) RET 0
100 write(0) RET 5
100 read(0) RET -1 errno 93
100 read(1048575) RET -1 errno 9
100 read(1048576) RET -1 errno 9
99999 read(4) RET 1
100000 read(4) RET 1
007 read(4) RET 1
100 pwrite(3) RET 1
100 dup(3) RET 4
100 dup2(3,4) RET 4
100 dup2(3,4) RET 5
100 fork() RET 101
100 fork() RET 100000
100 close(3) RET 0
100 closefrom(3) RET 0
100 open("a",O_RDONLY|O_CLOEXEC) RET 5
100 open("x\\x22\\x00y",O_RDONLY) RET -1 errno 94
100 openat(3,"../a",O_RDONLY|O_CREAT) RET -1 errno 93
100 openat(AT_FDCWD,"",0) RET 4
100 renameat(3,"a",9,"b") RET 0
100 rename("a","b") RET 0
100 unlinkat(3,"a",AT_REMOVEDIR) RET 0
100 cap_enter() RET 0
100 cap_enter() RET 1
100 execve("/bin/x") RET 0
100 fexecve(4) RET -1 errno 2
100 fcntl(3,F_DUPFD,9) RET 9
100 fcntl(3,F_SETFD,FD_CLOEXEC) RET 0
100 fcntl(3,F_GETFL) RET 2
100 ioctl(0) RET -1 errno 93
100 lseek(6) RET 0
100 socket(0) RET 7
100 socketpair(0) RET 7,8
100 pipe2(O_CLOEXEC) RET 3,4
100 accept(3) RET 4
100 sendto(3,nodest) RET 1
100 mmap(3,PROT_READ|PROT_EXEC,MAP_SHARED) RET 8192
100 pdfork(3) RET 101
100 foo(a,"b|c) RET -1 errno 93
100
100 write(7) RET 5
100 cap_rights_limit(0,CAP_READ|CAP_WRITE) RET 0
100 write(0) RET 1
100 cap_rights_limit(3,CAP_PREAD) RET 0
100 cap_rights_limit(3,CAP_READ) RET 0
100 write(4) RET 1
101 write(3) RET 1
101 @exit()
100 open("a",O_RDONLY) RET 3
100 open("/etc/x",O_RDONLY) RET 5
100 read(5) RET 1
100 open("x",O_RDONLY) RET -1 errno 94
100 cap_rights_limit(3,CAP_LOOKUP|CAP_READ) RET 0
100 openat(3,"a",O_RDONLY) RET 4
100 openat(3,"../a",O_RDONLY) RET -1 errno 93
100 openat(3,"a",O_RDONLY) RET -1 errno 93
100 read(4 RET 1
100 read(4)
100 read(x) RET 1
100 read(0) RET 1
100 cap_rights_limit(6,CAP_READ|CAP_SEEK) RET 0
100 cap_rights_limit(6,CAP_READ) RET 0
100 cap_rights_limit(3,CAP_READ|CAP_WRITE|CAP_SEEK) RET 0
100 cap_rights_limit(3,CAP_MMAP_R) RET 0
100 @start(3,3)
100 @start(0)
100 cap_ioctls_limit(3) RET 0
100 mmap(3,PROT_READ|PROT_WRITE,MAP_PRIVATE) RET 4096
""".split("\n")[:-1]
ROW = "100 @start(0,3)\n100 cap_rights_limit(0,CAP_READ) RET 0\n100 write(0) RET 5\n"
ROW_REPORT = "3 100 write missing 0 CAP_WRITE\nfindings 1\n"
ROW_LIMITS = """# process 100 before line 3
insert 3 100 cap_rights_limit(0,NONE) RET 0
insert 4 100 cap_rights_limit(3,NONE) RET 0
insert 5 100 cap_enter() RET 0
"""
FROM = "100 unsure unknown 0=CAP_READ\n"
TEXTS = {
    "none": "",
    "row": ROW,
    "forked": "100 @start(0,3)\n100 cap_rights_limit(3,CAP_READ) RET 0\n100 fork() RET 101\n100 close(3) RET 0\n101 write(3) RET 1\n",
    "script": "report\ndelete 2\ninsert 2 x\nreport\nshow 2\n",
    "whole": "100 write(0) RET 1\n",
    "from": FROM,
    "executed": '100 @start(0,3)\n100 open("a",O_RDONLY|O_CLOEXEC) RET 5\n100 execve("/bin/x") RET 0\n100 read(5) RET 1\n',
    "executed-script": "report 4 4\ndelete 3\n# note\nundo\nreport\ninsert 1 1 @exit()\n",
    "started": '100 execve("/bin/x") RET 0\n100 read(6) RET 1\n100 read(5) RET 1\n',
    "used": """100 @start(3)
100 cap_rights_limit(3,CAP_READ) RET 0
100 cap_enter() RET 0
100 @uses(3,CAP_EVENT)
100 @global()
100 @refused(3,CAP_EVENT)
""",
    "opened": "# note\n100 out closed 5=ALL\n",
    "denied": "100 cap_rights_limit(3,CAP_READ) RET 0\n100 write(3) RET -1 errno 93\n100 foo() RET -1 errno 94\n",
    "refused": "# a\n100 @exit()\n100 read(x) RET 1\n",
    "refused-start": "1 out closed\n2 out\n",
    "count": "count\n",
    "nul": "100 @exit()\n\x00\n",
    "cr": "100 @exit()\r\n",
    "crlf": ROW.replace("\n", "\r\n"),
    "cr-start": "100 out closed\r\n",
    "last": "100 @exit()\n100 read(x) RET 1",
    "cut": "100 @exit()\n100 @exit(",
}
LARGE = {"wide": ("x", 10_000_000), "more": ("1 @exit()\n", 1_000_001)}  # texts, and how often each is repeated
# Runs whose devices fail.
STREAMS = """
$ check row
3 100 write missing 0 CAP_WRITE
findings 1
status 1
$ edit forked script
5 101 write missing 3 CAP_WRITE
findings 1
ok 4
refused E3
findings 0
100 fork() RET 101
status 0
$ check whole --start from
1 100 write missing 0 CAP_WRITE
findings 1
status 1
$ check executed --profile 2
4 100 read closed 5
findings 1
status 1
$ check started --start opened --profile 2
2 100 read closed 6
findings 1
status 1
$ edit executed executed-script --profile 2
4 100 read closed 5
findings 1
ok 3
refused E10
findings 0
ok 4
status 0
$ check refused
refused E4 line 3
status 2
$ check row --start refused-start
refused E4 start line 2
status 2
$ explain forked 5
5 101 write(3) RET 1
missing 3 CAP_WRITE
3 3 100 fork() RET 101
3 2 100 cap_rights_limit(3,CAP_READ) RET 0
3 1 100 @start(0,3)
status 1
$ explain whole 1 --start from
1 100 write(0) RET 1
missing 0 CAP_WRITE
0 start CAP_READ
status 1
$ explain forked 6 --profile 2
refused E7
status 2
$ explain refused 1
refused E4 line 3
status 2
$ explain row 1 --start refused-start
refused E4 start line 2
status 2
$ denials denied
2 100 write lacks 3 CAP_WRITE
3 100 foo unexplained
denials 2
status 1
$ denials denied --start opened --profile 2
2 100 write lacks 3 CAP_WRITE
3 100 foo unexplained
denials 2
status 1
$ denials refused
refused E4 line 3
status 2
$ denials row --start refused-start
refused E4 start line 2
status 2
$ check used
4 100 @uses missing 3 CAP_EVENT
5 100 @global forbidden
findings 2
status 1
$ denials used
6 100 @refused lacks 3 CAP_EVENT
denials 1
status 1
$ limits used 2
# process 100 before line 2
insert 2 100 cap_rights_limit(3,CAP_READ) RET 0
insert 3 100 cap_enter() RET 0
status 0
$ limits used 1
# process 100 before line 1
# line 1 is where process 100 begins
status 0
$ limits executed
insert 3 100 cap_rights_limit(5,NONE) RET 0
status 0
$ limits forked 2 --profile 2
# process 100 before line 2
insert 2 100 cap_rights_limit(0,NONE) RET 0
insert 3 100 cap_rights_limit(3,CAP_READ) RET 0
insert 4 100 cap_enter() RET 0
status 0
$ limits started 1 --start opened
# process 100 before line 1
insert 1 100 cap_rights_limit(5,NONE) RET 0
# no cap_enter: line 1, execve of process 100
status 0
$ limits forked 6
refused E7
status 2
$ limits refused
refused E4 line 3
status 2
$ limits row 1 --start refused-start
refused E4 start line 2
status 2
"""
# The words, what is on standard input, the status, and what is printed; at status 3 E11 is said.
FILES = (
    ("check none", "", 0, "findings 0\n"),
    ("check", "", 0, "findings 0\n"),
    ("edit none none", "", 0, ""),
    ("edit none", "count\n", 0, "0\n"),
    ("check none --start none", "", 0, "findings 0\n"),
    ("check nul", "", 2, "refused E3 line 2\n"),
    ("check cr", "", 2, "refused E2 line 1\n"),
    ("check crlf", "", 2, "refused E2 line 1\n"),
    ("check row --start cr-start", "", 2, "refused E5 start line 1\n"),
    ("check more", "", 2, "refused E8 line 1000001\n"),
    ("edit more count", "", 2, "refused E8 line 1000001\n"),
    ("check last", "", 2, "refused E4 line 2\n"),
    ("check cut", "", 2, "refused E2 line 2\n"),
    ("check wide", "", 2, "refused E1 line 1\n"),
    ("edit wide count", "", 2, "refused E1 line 1\n"),
    ("edit row wide", "", 1, "refused E1\n"),
    ("check row --start wide", "", 2, "refused E1 start line 1\n"),
    ("edit row cr", "", 1, "refused E10\n"),
    ("edit row", "count\r\n\x00\ncount", 1, "refused E10\nrefused E10\n3\n"),
    ("explain none 1", "", 2, "refused E7\n"),
    ("explain crlf 1", "", 2, "refused E2 line 1\n"),
    ("explain more 1", "", 2, "refused E8 line 1000001\n"),
    ("explain wide 1", "", 2, "refused E1 line 1\n"),
    ("explain / 1", "", 3, ""),
    ("explain /dev/zero 1", "", 2, "refused E1 line 1\n"),
    ("denials none", "", 0, "denials 0\n"),
    ("denials", ROW, 0, "denials 0\n"),
    ("denials crlf", "", 2, "refused E2 line 1\n"),
    ("denials more", "", 2, "refused E8 line 1000001\n"),
    ("denials /", "", 3, ""),
    ("denials /dev/zero", "", 2, "refused E1 line 1\n"),
    ("limits none", "", 0, ""),
    ("limits none 1", "", 2, "refused E7\n"),
    ("limits crlf", "", 2, "refused E2 line 1\n"),
    ("limits more 1", "", 2, "refused E8 line 1000001\n"),
    ("limits wide", "", 2, "refused E1 line 1\n"),
    ("limits /", "", 3, ""),
    ("limits /dev/zero 1", "", 2, "refused E1 line 1\n"),
    ("limits /dev/stdin 3", ROW, 0, ROW_LIMITS),
    ("limits - 3", ROW, 0, ROW_LIMITS),
    ("limits row --start /", "", 3, ""),
    ("check /dev/zero", "", 2, "refused E1 line 1\n"),
    ("check row --start /dev/zero", "", 2, "refused E1 start line 1\n"),
    ("check /", "", 3, ""),
    ("edit row /", "", 3, ""),
    ("edit / count", "", 3, ""),
    ("edit row none", "", 1, ""),
    ("check row --start /", "", 3, ""),
)
# Text that a pipe cuts short: the words, what is in the pipe, the status, and what is printed.
CUT = (
    ("check", ROW[:-4], 2, "refused E2 line 3\n"),
    ("check", ROW[:-1], 1, ROW_REPORT),
    ("limits -", ROW[:-4], 2, "refused E2 line 3\n"),
    ("limits - 3", ROW[:-1], 0, ROW_LIMITS),
    ("edit /dev/stdin none", ROW[:-4], 2, "refused E2 line 3\n"),
    ("edit row", "count\ndelete 2\nrepo", 0, "3\nok 2\nrefused E10\n"),
    ("edit row", "count\ndelete 2", 0, "3\nok 2\n"),
    ("check whole --start /dev/stdin", FROM[:-8], 2, "refused E5 start line 1\n"),
    ("check whole --start /dev/stdin", FROM[:-1], 1, "1 100 write missing 0 CAP_WRITE\nfindings 1\n"),
)
# Texts that no run reads to their end: the words, the producer, the listener, the statuses, what is heard, and what is said.
ENDLESS = (
    ("check", ["yes", "1 @exit()"], ["cat"], 2, "refused E8 line 1000001\n", ""),
    ("edit row", ["yes", "count"], ["head", "-n", "5"], 3, "3\n" * 5, "capcheck: E12\n"),
    ("check row --start /dev/stdin", ["yes", "1 out closed"], ["cat"], 2, "refused E3 start line 2\n", ""),
)
CLOSED = (("check row", ""), ("edit row", "count\n"), ("check refused", ""), ("limits row 3", ""), ("--help", ""))
WITHOUT = (("check", 0), ("limits -", 0), ("check row", 1), ("edit row count", 1), ("limits row 3", 1))
E9, E11, E12 = (f"capcheck: E{code}\n" for code in (9, 11, 12))


def limited(what, most):
    """Limits a resource of the program, as preexec_fn."""
    return lambda: resource.setrlimit(what, (most, most))


# ---- lines


def spoiled():
    """Each prefix of each line, and each line with one byte replaced."""
    for line in [*LINES, LONGEST]:
        step = 1 if line != LONGEST else 97
        for end in range(0, len(line) + 1, step):
            yield line[:end]
        for place in range(0, len(line), step):
            for byte in SPOILS:
                yield line[:place] + byte + line[place + 1 :]
    yield LONGEST + "x"


class Lines(harness.Test):
    def wanted(self, line):
        """The replies to an insertion of a line, `show` and `delete`."""
        try:
            return "ok 1", reference.written(line), "ok 0"
        except reference.Refused as fault:
            self.assertIn(fault.args[0], range(1, 7), f"the refusal of {line!r}")
            return f"refused E{fault.args[0]}", "refused E7", "refused E7"

    def test_lines_are_read_or_refused(self):
        save("empty", "")
        lines = list(dict.fromkeys(spoiled()))
        status, out, said = capcheck("edit", "empty", given="".join(f"insert 1 {line}\nshow 1\ndelete 1\n" for line in lines))
        answers, shown = out.split("\n"), []
        self.same("the spoiled lines", (0, "", 3 * len(lines) + 1), (status, said, len(answers)))
        for line, *answer in zip(lines, answers[0::3], answers[1::3], answers[2::3]):
            self.same(f"{line!r}", wanted := self.wanted(line), tuple(answer), "spoiled lines")
            shown += [wanted[1]] * wanted[0].startswith("ok")
        self.assertGreater(len(shown), 300)
        out = capcheck("edit", "empty", given="".join(f"insert 1 {line}\nshow 1\n" for line in shown)).out
        self.same("what was shown, read again", "".join(f"ok {at}\n{line}\n" for at, line in enumerate(shown, 1)), out)


# ---- devices


class Streams(harness.Test):
    """What the classes below have in their folder."""

    def setUp(self):
        for name, text in TEXTS.items():
            save(name, text)

    def streams(self):
        """Each run of STREAMS: its words, and how it ends."""
        for words, out, status in re.findall(r"^\$ (.*)\n((?:(?!status ).*\n)+)status (\d)$", STREAMS, re.M):
            self.same(words, wanted := (int(status), out, ""), capcheck(*words.split()), "runs whose devices fail")
            yield words, wanted

    def answers(self, what, words, wanted, kind, **how):
        """That the program answers so to these words."""
        self.same(f"capcheck {words} {what}", wanted, capcheck(*words.split(), **how), kind)


class Output(Streams):
    is_long = True

    def test_output_fails_after_each_byte(self):
        def with_room():
            signal.signal(signal.SIGXFSZ, signal.SIG_IGN)
            resource.setrlimit(resource.RLIMIT_FSIZE, (most, most))

        for words, (status, out, _) in self.streams():
            for most in range(len(out) + 1):
                with open("out", "wb") as file:
                    answer = capcheck(*words.split(), stdout=file, preexec_fn=with_room)
                wanted = (status, "", "") if most == len(out) else (3, "", E12)
                self.same(f"{words} with room for {most} bytes", (wanted, out[:most]), (answer, harness.text_of("out")), "outputs that fail")

    def test_a_full_disk_is_a_fault(self):
        for words, _ in self.streams():
            with open("/dev/full", "wb") as full:
                self.answers("to a full disk", words, (3, "", E12), "outputs that fail", stdout=full)


class Input(Streams):
    loads = "fail_reads"

    def replied(self, words, reads):
        """What a run has written when so many reads were answered, each by 7 bytes at most: replies of `edit`, else nothing."""
        command, *files = words.split()
        if command != "edit":
            return ""
        trace, script = (TEXTS[name] for name in files[:2])
        given = script[: max(0, 7 * (reads - (len(trace) + 6) // 7 - 1))]
        return reference.replies(trace, given[: given.rfind("\n") + 1], 2 if "--profile" in files else 1)[0]

    def test_input_fails_at_each_read(self):
        for words, wanted in self.streams():
            for number in range(1, 502):
                answer = capcheck(*words.split(), env={**os.environ, "LD_PRELOAD": self.library, "FAIL": str(number)})
                if answer == wanted and number > 1:
                    break
                self.same(f"{words} whose read {number} fails", (3, self.replied(words, number - 1), E11), answer, "inputs that fail")
            self.assertLess(number, 501, f"{words} reads on and on")


# ---- files and pipes


class Files(Streams):
    is_long = True

    def setUp(self):
        super().setUp()
        for name, (text, times) in LARGE.items():
            save(name, text * times)

    def test_files_and_pipes(self):
        for words, given, status, out in FILES:
            self.answers(f"given {given!r}", words, (status, out, E11 if status == 3 else ""), "odd files", given=given)
        self.answers("", "check row --start nul", (2, reference.check(ROW, 1, TEXTS["nul"])[0], ""), "odd files")
        self.answers("given the row", "explain /dev/stdin 3", (1, reference.explained(ROW, 3)[0], ""), "odd files", given=ROW)

    def test_a_closed_pipe_is_a_fault(self):
        """Nobody reads what is written."""
        for words, given in CLOSED:
            reads, writes = os.pipe()
            os.close(reads)
            self.answers("into a closed pipe", words, (3, "", E12), "broken pipes", given=given, stdout=writes)
            os.close(writes)

    def test_missing_devices_are_faults(self):
        """There is no standard input, or no standard output; and a word that is no text is a mistake."""
        for words, device in WITHOUT:
            self.answers(f"without device {device}", words, (3, "", (E11, E12)[device]), "missing devices", preexec_fn=lambda: os.close(device))
        status, out, said = capcheck("check", b"\xff")
        self.same("a word that is no text", (2, "", True), (status, out, said != ""))

    def test_a_killed_writer_ends_its_text(self):
        """A pipe that ends in the middle of a line ends the text there, whoever ended it."""
        for words, text, status, out in CUT:
            with harness.started(["sh", "-c", 'printf %s "$TEXT"; kill -9 $$'], env={**os.environ, "TEXT": text}) as writer:
                self.answers(f"of a writer killed after {text[-9:]!r}", words, (status, out, ""), "broken pipes", stdin=writer.stdout)
                self.same("the killed writer", -signal.SIGKILL, writer.wait(30), "broken pipes")


def piped(words, producer, listener):
    """The statuses of a producer, the program and a listener side by side, what the listener wrote and what the program said."""
    first = harness.started(producer, stdin=harness.DEVNULL, stderr=None)
    program = harness.started(["capcheck", *words.split()], stdin=first.stdout)
    last = harness.started(listener, stdin=program.stdout, stderr=None)
    first.stdout.close(), program.stdout.close()
    heard, said = last.communicate(timeout=300)[0], program.stderr.read()
    return (first.wait(30), program.wait(30), last.returncode), heard.decode("latin1"), said.decode("latin1")


class Pipes(Streams):
    def test_endless_input_is_let_go(self):
        """A producer that never ends is let go at the first refused line, and with a listener who leaves."""
        for words, producer, listener, status, heard, said in ENDLESS:
            self.same(f"endless input of {words}", ((-signal.SIGPIPE, status, 0), heard, said), piped(words, producer, listener), "endless inputs")
        with harness.Talk("capcheck", "edit", "row", "/dev/zero") as endless:
            endless.hear("refused E1\n")
            endless.hear_nothing()
            self.same("a script that is one endless line", None, endless.process.poll(), "endless inputs")
            endless.process.kill()
            endless.ends(-signal.SIGKILL)

    def test_a_killed_reader_is_a_fault(self):
        """Whoever listens is killed in the middle of a report that is longer than a pipe: what it heard is a prefix."""
        report = "".join(f"{at} 100 write missing 0 CAP_WRITE\n" for at in range(3, 20_003)) + "findings 20000\n"
        limits = "".join(f"insert {at} 100 cap_rights_limit(5,NONE) RET 0\n" for at in range(5_001, 1, -1))
        save("loud", "100 @start(0)\n100 cap_rights_limit(0,CAP_READ) RET 0\n" + "100 write(0) RET 1\n" * 20_000)
        save("ask", "count\nreport\ncount\n"), save("made", '100 open("a",0) RET 5\n' * 5_000)
        listener = ["sh", "-c", "dd bs=1000 count=90 iflag=fullblock of=heard 2>dd; kill -9 $$"]
        for words, out, status in (("check loud", report, 1), ("edit loud ask", f"20002\n{report}20002\n", 1), ("limits made", limits, 0)):
            self.answers("to its end", words, (status, out, ""), "broken pipes")
            statuses, _, said = piped(words, ["true"], listener)
            wanted = (0, 3, -signal.SIGKILL), E12, out[:90_000]
            self.same(f"{words} to a killed reader", wanted, (statuses, said, harness.text_of("heard")), "broken pipes")

    def test_a_hundred_sessions(self):
        """Sessions side by side don't know of each other."""

        def talk(at, session):
            for number in range(20):
                session.say(f"insert 1 {1 + at} @exit()\nshow 1\n")
                session.hear(f"ok {4 + number}\n{1 + at} @exit()\n")
            session.close()
            session.ends(1)

        with contextlib.ExitStack() as stack, concurrent.futures.ThreadPoolExecutor(100) as pool:
            words = [("capcheck", "edit", "row", "--profile", str(1 + at % 2)) for at in range(100)]
            sessions = [stack.enter_context(harness.Talk(*it)) for it in words]
            harness.tried["sessions side by side"] += len(list(pool.map(talk, range(100), sessions)))


# ---- memory


@functools.lru_cache()
def right_answers(trace, script):
    """The answers to a script: with ample memory first, and where it runs out for any of its edits and reports, or at the end."""
    lines, answers = script.split("\n")[:-1], []
    for lacks in itertools.product(*[(False, True) if line != "count" else (False,) for line in lines]):
        out, status = reference.replies(trace, "\n".join("undo" if lack else line for lack, line in zip(lacks, lines)))
        out = out.replace("refused E10", "refused E9")
        answers += [(status, out, ""), (3, out, E9)]
    return answers


class Memory(harness.Test):
    """Under a limit of memory a run ends rightly or with E9; under a small one the program may not even be loaded."""

    is_long, ample = True, 80_000_000

    def setUp(self):
        trace = "".join(f"{1 + at % 997} socket(0) RET {at % 64}\n{1 + at % 997} write({at % 64}) RET 1\n" for at in range(20_000))
        self.trace, self.script = trace + "1 close(0) RET 0\n1 read(0) RET 1\n", "count\ndelete 1\nreport 40001 40001\n"
        save("many", self.trace), save("script", self.script), save("all", "1 out closed 0=ALL\n")

    def ran(self, words, most):
        """The answer under a limit of memory, or that there is none."""
        try:
            return capcheck(*words, preexec_fn=limited(resource.RLIMIT_AS, most))
        except harness.NotStarted:
            return None

    def ending(self, words, most, rights):
        """How a run under a limit of memory ended: by the number of its right answer, or None where the program isn't loaded under
        this limit. It then tells neither its version nor that memory ran out."""
        harness.tried["limits of memory"] += 1
        if (answer := self.ran(words, most)) in rights:
            return rights.index(answer)
        loaded = self.ran(["--version"], most)
        if loaded and (loaded.status, loaded.said) in ((0, ""), (3, E9)):
            self.same(f"{words} with {most} bytes of memory", rights[0], answer)
        return None

    def sizes(self, words, rights):
        """Limits of memory of all sizes, and many of them where memory begins to be ample."""
        low, high = 1_000_000, self.ample
        while high - low > 65_536:
            middle = (low + high) // 2
            low, high = (low, middle) if self.ending(words, middle, rights) == 0 else (middle, high)
        return [*range(1_000_000, 12_000_000, 500_000), *range(12_000_000, self.ample, 4_000_000), *range(high - 1_600_000, high + 400_000, 40_000)]

    def try_limits(self, *lines):
        for words in map(str.split, lines):
            by_first = [word for word in words if word not in ("--profile", "2")]
            rights = [*(right_answers(self.trace, self.script) if words[0] == "edit" else [capcheck(*by_first)]), (3, "", E9)]
            self.same(f"{words} with ample memory", 0, self.ending(words, self.ample, rights))
            ends = collections.Counter(self.ending(words, most, rights) for most in self.sizes(words, rights))
            lacked = sum(ends.values()) - ends[0] - ends[None]
            self.same(f"{words} under limits: right {ends[0]} times, lacking memory {lacked} times", True, ends[0] > 0 and lacked > 0)


class CheckMemory(Memory):
    def test_check(self):
        self.try_limits("check many", "check many --profile 2 --start all", "explain many 40001")


class LimitsMemory(Memory):
    def test_limits(self):
        self.try_limits("denials many", "limits many", "limits many 20001")


class EditMemory(Memory):
    def test_edit(self):
        self.try_limits("edit many script", "edit many script --profile 2")
