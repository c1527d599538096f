#!/usr/bin/env python3
"""Writes docs/RIGHTS.md from the constants of crates/cap_rights/src/bits.rt: `tools/rights_page.py`, after one was changed.

With `--print` it prints the page and writes nothing; `tests/documents.py` compares the two.
"""
import pathlib
import re
import sys

ROOT = pathlib.Path(__file__).resolve().parent.parent
PAGE = ROOT / "docs" / "RIGHTS.md"
HEAD = """# The names of rights

For a reader who meets a name in a trace or a report. rights(4) says what each right allows, `docs/RULES.md` what each call
needs. `tools/rights_page.py` writes this page from `crates/cap_rights/src/bits.rt`.

## Rights

A report names single rights. Some come with others:

| Right | Comes with |
|---|---|
"""
ALONE = """
These come alone: """
SEVERAL = """
## Names for other rights

They are read and never written.

| Name | Stands for |
|---|---|
"""


def constants(text):
    """The name and the bits of each constant, in order."""
    values, found = {}, []
    for name, expression in re.findall(r" *const (CAP_\w+) = ([^;]*);", text):
        value = 0
        for part in expression.split("|"):
            shift, other = re.fullmatch(r"\s*(?:1 << (\d+)|Self::(CAP_\w+)\.0)\s*", part).groups()
            value |= values[other] if other else 1 << int(shift)
        values[name] = value
        found.append((name, value))
    return found


def page():
    """The text of the page."""
    found = constants((ROOT / "crates" / "cap_rights" / "src" / "bits.rt").read_text(encoding="utf-8"))
    singles = []  # the right of each bit: the first constants, in the order of the bits
    for name, value in found:
        if value >> len(singles) & 1 and value < 2 << len(singles):
            singles.append(name)
    rows, alone = {True: [], False: []}, []
    for name, value in found:
        others = [f"`{it}`" for bit, it in enumerate(singles) if value >> bit & 1 and it != name]
        if others:
            rows[name in singles].append(f"| `{name}` | {', '.join(others)} |\n")
        else:
            alone.append(f"`{name}`")
    return HEAD + "".join(rows[True]) + ALONE + ", ".join(alone) + ".\n" + SEVERAL + "".join(rows[False])


def main():
    if sys.argv[1:] == ["--print"]:
        print(page(), end="")
    else:
        PAGE.write_text(page(), encoding="utf-8")


main()
