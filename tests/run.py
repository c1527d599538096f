#!/usr/bin/env python3
"""Runs the tests of the built program and its tools, side by side: tests/run.py PROGRAM [-k WORD].. [-v] [-j N] [--seed N]

    tests/run.py PROGRAM --bless NAME    writes what is printed now into the cases whose names have NAME in them (cases.py)
    tests/run.py PROGRAM --list          lists the tests

Tests are the worked cases in tests/cases and in the pages, and the classes of the modules beside this one. With -k those run
whose name, or that of their class, has one of the words in it, and with -k '!WORD' those that haven't that word. A name is FILE.NAME
of a case, and MODULE.CLASS.NAME of another test; the class of each case is cases.FILE with a number. With --of-program those are
left out that aren't about the program, and, where it is linked statically, those that load something into it. With -v each class
is told as it ends. Random tests begin with the seed, 1 where none is given. Of each test that fails it is printed what was run,
and what it printed beside what was wanted; then what each module took, and how much was tried. The status is 1 where one failed.
"""

import argparse
import collections
import glob
import importlib
import multiprocessing
import os
import resource
import sys
import time
import unittest
from typing import NamedTuple

import cases
import compiler
import harness


KINDS = []  # the classes that run; a process of one has it from the process that it was forked of


class Ended(NamedTuple):
    """How the tests of a class ended."""

    name: str
    count: int
    faults: list
    tried: collections.Counter
    left_out: list
    seconds: float
    used: float


class Result(unittest.TestResult):
    """Keeps what failed, as text."""

    def __init__(self):
        super().__init__()
        self.faults = []

    def note(self, test, why):
        kind, value, _ = why
        text = str(value) if issubclass(kind, (AssertionError, harness.Lost)) else self._exc_info_to_string(why, test)
        self.faults.append(f"FAILED {name_of(test)}: {text}")

    def addError(self, test, why):
        self.note(test, why)

    def addFailure(self, test, why):
        self.note(test, why)

    def addSubTest(self, test, subtest, why):
        if why:
            self.note(test, why)


def name_of(test):
    """The name of a test, as it is told."""
    return getattr(test, "name", None) or test.id()


def classes():
    """The classes of tests: of the cases first, of which there are most."""
    found = list(cases.classes())
    for path in sorted(glob.glob(os.path.join(harness.HERE, "*.py"))):
        if "harness.Test)" in harness.text_of(path):
            module = importlib.import_module(os.path.splitext(os.path.basename(path))[0])
            found += [it for it in vars(module).values() if isinstance(it, type) and issubclass(it, harness.Test) and it.__module__ == module.__name__]
    return sorted(found, key=lambda it: not getattr(it, "is_long", False))


def tests_of(kind, words):
    """The tests that have one of the words in their name or that of their class, where there is any, and none of those after a "!"."""

    def has_one(test, some):
        return any(word in name for word in some for name in (name_of(test), f"{kind.__module__}.{kind.__name__}"))

    wanted, unwanted = [word for word in words if word[:1] != "!"], [word[1:] for word in words if word[:1] == "!"]
    found = [kind(name) for name in unittest.defaultTestLoader.getTestCaseNames(kind)]
    return [test for test in found if (not wanted or has_one(test, wanted)) and not has_one(test, unwanted)]


def chosen(words, is_of_program):
    """The classes that have such tests. This ends here where what they load can't be made, or the program doesn't load it."""
    kinds, path = [it for it in classes() if tests_of(it, words)], harness.program()
    if is_of_program:
        kinds = [it for it in kinds if it.of_program]
    if is_of_program and compiler.is_static(path):
        for it in (it for it in kinds if it.loads):
            print(f"left out: {it.__module__}.{it.__name__}, since nothing can be loaded into a static program")
        kinds = [it for it in kinds if not it.loads]
    if any(it.loads for it in kinds):
        compiler.compiler()
        compiler.loads(path)
    return kinds


def used():
    """The processor seconds of this process and those that it has waited for."""
    return sum(it.ru_utime + it.ru_stime for it in map(resource.getrusage, (resource.RUSAGE_SELF, resource.RUSAGE_CHILDREN)))


def ended(at, words):
    """Runs the tests of a class, which may be one that was made as this ran."""
    kind = KINDS[at]
    result, tests, began = Result(), tests_of(kind, words), time.monotonic()
    harness.tried.clear()
    harness.left_out.clear()
    try:
        unittest.TestSuite(tests).run(result)
    except SystemExit as why:
        result.faults.append(f"FAILED {kind.__name__}: {why}")
    spent = time.monotonic() - began, used()
    return Ended(f"{kind.__module__}.{kind.__name__}", len(tests), result.faults, harness.tried, harness.left_out, *spent)


def run(kinds, words, jobs, tells):
    """Runs classes side by side, each in a process of its own, and yields how each ended."""
    KINDS[:] = kinds
    context = multiprocessing.get_context("fork")
    with context.Pool(jobs, maxtasksperchild=1) as pool:
        for done in [pool.apply_async(ended, (at, words)) for at in range(len(kinds))]:
            it = done.get()
            if tells:
                print(f"{it.name}: {it.count} tests, {len(it.faults)} failed, {it.seconds:.1f} s", flush=True)
            yield it


def told(all_ended, began):
    """Prints what failed, what was left out, what each module took and how much was tried; answers whether all is well."""
    faults = [fault for it in all_ended for fault in it.faults]
    for line in [*faults, *sorted({f"left out: {why}" for it in all_ended for why in it.left_out})]:
        print(line)
    took, tried = collections.Counter(), collections.Counter()
    for it in all_ended:
        took[it.name.partition(".")[0]] += it.used
        tried.update(it.tried)
    print("processor seconds: " + ", ".join(f"{name} {seconds:.0f}" for name, seconds in took.most_common()))
    print("tried: " + ", ".join(f"{number:,} {what}" for what, number in sorted(tried.items())))
    count = sum(it.count for it in all_ended)
    print(f"{count} tests in {time.monotonic() - began:.0f} seconds, seed {harness.seed()}: {f'{len(faults)} FAULTS' if faults else 'all as they must be'}")
    return not faults and count > 0


def main():
    parser = argparse.ArgumentParser(description=__doc__, formatter_class=argparse.RawDescriptionHelpFormatter)
    parser.add_argument("program", metavar="PROGRAM")
    parser.add_argument("-k", metavar="WORD", action="append", default=[])
    parser.add_argument("-v", action="store_true")
    parser.add_argument("--of-program", action="store_true")
    parser.add_argument("-j", metavar="N", type=int, default=len(os.sched_getaffinity(0)))
    parser.add_argument("--seed", metavar="N", type=int, default=1)
    parser.add_argument("--bless", metavar="NAME")
    parser.add_argument("--list", action="store_true")
    words = parser.parse_args()
    os.environ |= {"CAPCHECK": os.path.abspath(words.program), "SEED": str(words.seed)}
    if words.bless:
        sys.exit(cases.bless(words.bless))
    kinds = chosen(words.k, words.of_program)
    if words.list:
        print(*(name_of(test) for kind in kinds for test in tests_of(kind, words.k)), sep="\n")
        return
    began = time.monotonic()
    sys.exit(0 if told(list(run(kinds, words.k, words.j, words.v)), began) else 1)


if __name__ == "__main__":
    main()
