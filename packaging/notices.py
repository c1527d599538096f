"""The notices of what is linked into the program: of the Rattle kit's crates, of the kit itself, and of a C library."""

import glob
import os
import re
import sys

PROGRAM = "capcheck"
# Libraries that the kit's authors wrote: no crate's authors have a notice there. The kit's terms are in no file of it.
OWN = {"core", "io", "libc", "os", "std", "std_alloc", "std_collections", "std_heap", "std_io"}


def linked(root, kit):
    """The kit's libraries on which the program rests, by crates.txt and what the kit says of each."""
    with open(f"{root}/crates.txt", encoding="utf-8") as file:
        lines = [line.split("#")[0].split(":") for line in file]
    uses = {name.strip(): below.split() for name, below in (line for line in lines if len(line) == 2)}
    found = ["core", "std", PROGRAM]
    for name in found:
        below = uses.get(name)
        if below is None:
            with open(f"{kit}/rlibs/{name}.rlib/format", encoding="utf-8") as file:
                below = re.findall(r"^dep (\w+)$", file.read(), re.M)
        found += [it for it in below if it not in found]
    return sorted(it for it in found if it not in uses)


def text_of(path):
    with open(path, encoding="utf-8") as file:
        return file.read().rstrip("\n") + "\n"


def of_crates(root, kit):
    """The notices of the kit's crates: a crate without one ends this."""
    parts = []
    for name in linked(root, kit):
        files = sorted(glob.glob(f"{kit}/rattle/{name}/LICENSE*"))
        if not files and name not in OWN:
            sys.exit(f"the kit has no notice of {name}, which is linked into the program")
        parts += [f"==== {name}, {os.path.basename(it)}\n\n{text_of(it)}" for it in files]
    return parts


def notices(root, kit, of_kit, of_library):
    """All notices as one text. `of_kit` and `of_library` are files. In a trial alone that of the kit may be missing."""
    said = f"==== The Rattle kit: {', '.join(sorted(OWN & set(linked(root, kit))))}\n\n"
    said += text_of(of_kit) if of_kit else "A trial, without the kit's terms: it must not be passed on.\n"
    parts = [f"==== The C library, {os.path.basename(it)}\n\n{text_of(it)}" for it in of_library]
    begin = "What is linked into capcheck besides its own code, and its notices.\n"
    return "\n".join([begin, said, *of_crates(root, kit), *parts])
