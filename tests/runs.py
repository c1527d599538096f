"""Runs of the program that aren't text: pipes that are closed, a trace that comes byte by byte, a version, and long traces."""

import os
import time

import harness
from harness import Answer

TRACE = {"t": "100 @start(0)\n\n# a\n100 read(0) RET 1\n", "script": "count\n"}
COMMANDS = ("check t", "edit t script", "explain t 1", "limits t 1", "--help")
CLOSED, BROKEN = Answer(3, "", "capcheck: E12\n"), Answer(3, "", "capcheck: standard output: broken pipe\ncapcheck: E12\n")
# What closes some of the descriptors 0 to 199 in profile 2, the even ones of which are marked, and which are closed after it.
CLOSING = (
    (["100 fork() RET 101", '100 execve("/bin/x") RET 0'], lambda fd: fd % 2 == 0),
    (["100 closefrom(100) RET 0"], lambda fd: fd % 2 == 0 or fd >= 100),
    (["100 dup(1) RET 150"], lambda fd: fd != 150 and (fd % 2 == 0 or fd >= 100)),
)


def into_closed_pipe(words):
    """Runs the program where standard error is a terminal, and standard output a pipe that nothing reads."""
    reads, writes = os.pipe()
    os.close(reads)
    with os.fdopen(writes, "wb") as closed:
        return harness.on_terminal(["capcheck", *words], stdout=closed)


def many_descriptors():
    """A trace of two hundred descriptors, all of which a child keeps, and its report in profile 2."""
    lines, found = ["100 @start()"] + [f'100 open("a",{"O_RDONLY" if fd % 2 else "O_CLOEXEC"}) RET {fd}' for fd in range(200)], []
    for begin, closes in CLOSING:
        lines += begin
        for fd in range(200):
            lines += [f"100 read({fd}) RET 1", f"101 read({fd}) RET 1"]
            found += [f"{len(lines) - 1} 100 read closed {fd}"] if closes(fd) else []
    return "".join(line + "\n" for line in lines), "".join(line + "\n" for line in [*found, f"findings {len(found)}"])


class Runs(harness.Test):
    def test_closed_pipes(self):
        for name, text in TRACE.items():
            harness.save(name, text)
        for command in COMMANDS:
            self.same(f"{command} | true", CLOSED, into_closed_pipe(command.split()), "closed pipes")
            if command != "--help":
                self.same(f"{command} -v | true", BROKEN, into_closed_pipe([*command.split(), "-v"]), "closed pipes")

    def test_byte_by_byte(self):
        with harness.started(["capcheck", "check", "-v"]) as process:
            for byte in b"100 @start(0)\n100 read(ab) RET 1":
                process.stdin.write(bytes([byte]))
                time.sleep(0.002)
            out, said = process.communicate(timeout=harness.PATIENCE)
        wanted = 2, b"refused E4 line 2\n", b"capcheck: standard input:2: E4: ab is not a descriptor\n"
        self.same("check -v, byte by byte", wanted, (process.returncode, out, said), "traces byte by byte")

    def test_version(self):
        for word in ("--version", "-V"):
            name, _, version = harness.capcheck(word).out.partition(" ")
            changes = harness.text_of(os.path.join(harness.ROOT, "CHANGELOG.md"))
            self.same(f"{word}, a version that CHANGELOG.md has", ("capcheck", True), (name, f"\n## {version}" in changes), "versions")

    def test_many_descriptors(self):
        trace, second = many_descriptors()
        harness.save("trace", trace)
        for options, report in (([], "findings 0\n"), (["--profile", "1"], "findings 0\n"), (["--profile", "2"], second)):
            wanted = Answer(int(report != "findings 0\n"), report, "")
            for words, given in ((["check"], trace), (["check", "trace"], ""), (["edit", "trace"], "report\n")):
                self.same(" ".join([*words, *options]), wanted, harness.capcheck(*words, *options, given=given), "runs with many descriptors")
