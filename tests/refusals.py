#!/usr/bin/env python3
"""Refuses allocations to tests of a crate, which `rt test` leaves as BINARY, crates/NAME/out/NAME_tests:

    tests/refusals.py BINARY
    tests/refusals.py --tests BINARY [LEAVE_OUT..]

The first is for cap_refusal_tests: each allocation of each call that they try is refused in turn (tests/refuse_each.c). Each test
must pass, with at least one allocation refused and answered so. The second is for any crate: each test must pass with any one
allocation refused, or end with out of memory; left out are those whose names hold one of the last words. It needs a C compiler
(tests/compiler.py).
"""

import itertools
import os
import sys
import tempfile

import compiler
import harness

OUT_OF_MEMORY = ("error: Alloc", "error: NoMemory", "error: Memory")


def loading(library, words, given="", tells="TELLS", **env):
    """The answer of a command with this library loaded into it, and what that writes to the descriptor which `tells` names."""
    with tempfile.TemporaryFile() as told:
        env = {**os.environ, "LD_PRELOAD": library, tells: str(told.fileno()), **env}
        answer = harness.run(words, given, env=env, pass_fds=[told.fileno()], timeout=600)
        told.seek(0)
        return answer, told.read().decode()


def refused(words, given, library):
    """The answers to these words, with each allocation refused in turn, and with none of number 0."""
    for number in itertools.count():
        answer, told = loading(library, words, given, "REFUSE_SIGNALS", REFUSE=str(number))
        if number and not told:
            return
        yield number, answer


def tests_of(binary):
    """The names of the tests, at least one."""
    listed = harness.run([binary, "--list"]).out.splitlines()
    return [line[: -len(": test")] for line in listed if line.endswith(": test")] or sys.exit(f"{binary} lists no test")


def refuse_each(binary, test, library):
    """Refuses each allocation of each call of a test, and answers how many."""
    end, told = loading(library, [binary, test], tells="REFUSALS")
    count, answered = told.count("r"), told.count("a")
    if end.status or not answered:
        sys.exit(f"{test}: status {end.status} after {count} refusals, {answered} answered: {end.said}")
    print(f"{test}: {count} allocations refused, {answered} of them answered with out of memory")
    return count


def refuse_any(binary, test, library):
    """Refuses each allocation of a test in turn, and answers how many."""
    for number, got in refused([binary, test], "", library):
        if number and got.status and not got.said.startswith(OUT_OF_MEMORY):
            sys.exit(f"{test}: with allocation {number} refused: {got}")
    print(f"{test}: {number} allocations")
    return number


def main():
    of_any = sys.argv[1:2] == ["--tests"]
    words = sys.argv[1 + of_any :]
    if not words or words[1:] and not of_any:
        print(__doc__.strip(), file=sys.stderr)
        sys.exit(2)
    binary = os.path.abspath(words[0])
    with tempfile.TemporaryDirectory() as folder:
        library = compiler.library("refuse" if of_any else "refuse_each", folder)
        compiler.loads(binary)
        tests = [test for test in tests_of(binary) if not any(word in test for word in words[1:])]
        total = sum((refuse_any if of_any else refuse_each)(binary, test, library) for test in tests)
    print(f"{len(tests)} tests and {total} allocations, each refused once: out of memory or right{'' if of_any else ', and right afterwards'}")


if __name__ == "__main__":
    main()
