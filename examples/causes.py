#!/usr/bin/env python3
"""Prints the lines without which a finding goes away:

    examples/causes.py PROGRAM TRACE K [OPTION..]

Each line before line K of TRACE is taken out, alone, and put back. It is printed, with its position, where line K has another
report without it. PROGRAM is capcheck; it loads TRACE once, with the options (as --profile 2), and stays at the end of two
pipes: each edit and each report of one line costs a path of its tree, and not a check of the trace.
"""

import subprocess
import sys


class Session:
    """`capcheck edit` at the end of two pipes."""

    def __init__(self, program, trace, *options):
        pipe = subprocess.PIPE
        self.capcheck = subprocess.Popen([program, "edit", trace, *options], stdin=pipe, stdout=pipe, text=True)

    def ask(self, command):
        """The reply to a command, without its last line feed."""
        self.capcheck.stdin.write(command + "\n")
        self.capcheck.stdin.flush()
        reply = [self.line()]
        while command.startswith("report") and not reply[-1].startswith(("findings ", "refused ")):
            reply.append(self.line())
        if reply[-1].startswith("refused "):
            raise SystemExit(f"{command}: {reply[-1]}")
        return "\n".join(reply)

    def line(self):
        line = self.capcheck.stdout.readline()
        if not line:
            raise SystemExit("capcheck has ended")
        return line.rstrip("\n")

    def end(self):
        self.capcheck.stdin.close()
        self.capcheck.wait()


def findings(session, position):
    """What is found at a line, without its position."""
    return [line.split(" ", 1)[1] for line in session.ask(f"report {position} {position}").split("\n")[:-1]]


def main(program, trace, position, *options):
    position = int(position)
    session = Session(program, trace, *options)
    found = findings(session, position)
    for at in range(1, position):
        line = session.ask(f"show {at}")
        session.ask(f"delete {at}")
        if findings(session, position - 1) != found:
            print(at, line, flush=True)
        session.ask(f"insert {at} {line}")
    session.end()


if len(sys.argv) < 4:
    sys.exit(__doc__.strip())
main(*sys.argv[1:])
