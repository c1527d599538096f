#!/usr/bin/env python3
"""Looks at an object of capcheck, as the prover leaves it, and renames in it what system.c defines.

    elf.py check OBJECT LOGIC       whether a proved build by this logic made it, and it asks for nothing unknown
    elf.py rename OBJECT RENAMED    writes it with the names of system.syms
    elf.py same OBJECT RENAMED      whether the second is the first with these names, and nothing else differs

An object is ELF for x86-64, by the System V ABI. Renaming appends the new names and lets symbols lead to them: no byte
of code or data moves. `same` doesn't rely on that. It compares what is loaded of all sections, and what each relocation
leads to, so it fits an object that another program renamed, as `objcopy --redefine-syms=system.syms`.
"""

import os
import struct
import sys

HERE = os.path.dirname(os.path.abspath(__file__))
SECTION = struct.Struct("<IIQQQQIIQQ")
SYMBOL = struct.Struct("<IBBHQQ")
RELOCATION = struct.Struct("<QQq")
SYMBOLS, RELOCATIONS, NOTHING_STORED = 2, 4, 8  # kinds of sections
IS_LOADED, IS_THREADS = 0x2, 0x400  # flags of sections
GLOBAL = 1
KNOWN_SECTIONS = {"", ".text", ".rodata", ".data.rel.ro", ".comment", ".note.GNU-stack", ".llvm_addrsig"}
KNOWN_SECTIONS |= {".symtab", ".strtab", ".shstrtab"}
NO_KIND, DATA, FUNCTION, SECTION_ITSELF, FILE = range(5)  # kinds of symbols: no other is known
ADDRESS, RELATIVE, CALL = 1, 2, 4  # R_X86_64_64, R_X86_64_PC32, R_X86_64_PLT32
OF_C = {"close", "isatty", "lseek", "memcpy", "memmove", "memset"}
OF_SYSTEM = {f"rattle_{name}" for name in ("alloc", "realloc", "dealloc", "arg", "errno", "set_errno")}


class Object:
    """The sections, symbols and relocations of an object."""

    def __init__(self, data):
        self.data = data
        if data[:8] != b"\x7fELF\x02\x01\x01\x00" or struct.unpack_from("<HH", data, 16) != (1, 62):
            sys.exit("it is no object for x86-64 by the System V ABI")
        (self.table,), (count, names) = struct.unpack_from("<Q", data, 40), struct.unpack_from("<HH", data, 60)
        self.headers = [SECTION.unpack_from(data, self.table + at * SECTION.size) for at in range(count)]
        self.names = [self.text(names, header[0]) for header in self.headers]
        (self.at_symbols,) = [at for at, header in enumerate(self.headers) if header[1] == SYMBOLS]
        self.at_strings = self.headers[self.at_symbols][6]
        self.symbols = list(SYMBOL.iter_unpack(self.content(self.at_symbols)))

    def content(self, at):
        """The bytes of a section."""
        _, kind, _, _, offset, size, *_ = self.headers[at]
        return b"" if kind == NOTHING_STORED else self.data[offset : offset + size]

    def text(self, strings, at):
        """A name in a section of names."""
        begin = self.headers[strings][4] + at
        return self.data[begin : self.data.index(b"\0", begin)].decode()

    def name(self, symbol):
        """The name of a symbol; of a section that of the section."""
        name, info, _, section, *_ = symbol
        return self.names[section] if info & 15 == SECTION_ITSELF else self.text(self.at_strings, name)

    def relocations(self):
        """For each section of them to which it applies; of each its place, its kind, what it adds, and its symbol."""
        for at, (_, kind, _, _, _, _, _, target, _, _) in enumerate(self.headers):
            if kind == RELOCATIONS:
                each = RELOCATION.iter_unpack(self.content(at))
                yield target, [(place, info & 0xFFFFFFFF, more, self.symbols[info >> 32]) for place, info, more in each]


def names_of_system():
    """What system.syms renames."""
    with open(os.path.join(HERE, "system.syms"), encoding="utf-8") as file:
        return dict(line.split() for line in file)


def is_known_section(name, flags):
    """Whether a linker of any system makes of a section what was meant."""
    families = (".rela", ".text", ".rodata", ".data.rel.ro")
    family = next((it for it in families if name.startswith(it + ".")), name)
    return (family == ".rela" or family in KNOWN_SECTIONS) and not flags & IS_THREADS


def faults(it, logic):
    """What is wrong with an object as the prover leaves it."""
    comments = [it.content(at).decode("latin1") for at, name in enumerate(it.names) if name == ".comment"]
    labels = [label for comment in comments for label in comment.split("\0") if label]
    if not any(label.startswith("rattle logic=") and logic in label for label in labels):
        yield f"no proved build by logic {logic} made it: its labels are {labels}"
    for name, header in zip(it.names, it.headers):
        if not is_known_section(name, header[2]):
            yield f"section {name} is unknown"
    known = OF_C | OF_SYSTEM | (set(names_of_system()) - {"main"})
    for symbol in it.symbols[1:]:
        name, (_, info, _, section, *_) = it.name(symbol), symbol
        if info & 15 > FILE or info >> 4 > GLOBAL:
            yield f"symbol {name} is of an unknown kind"
        elif info >> 4 == GLOBAL and (name not in known if section == 0 else name != "main"):
            yield f"symbol {name} is {'asked for' if section == 0 else 'defined'}, and unknown"
    for target, each in it.relocations():
        for kind in {kind for _, kind, *_ in each} - {RELATIVE, CALL}:
            if kind != ADDRESS or not it.names[target].startswith(".data.rel.ro"):
                yield f"relocations of kind {kind} in {it.names[target]} are unknown"


def renamed(it, names):
    """The bytes of an object with other names for global symbols."""
    out, strings = bytearray(it.data), bytearray(it.content(it.at_strings))
    for at, symbol in enumerate(it.symbols):
        if symbol[1] >> 4 == GLOBAL and it.name(symbol) in names:
            struct.pack_into("<I", out, it.headers[it.at_symbols][4] + at * SYMBOL.size, len(strings))
            strings += names[it.name(symbol)].encode() + b"\0"
    struct.pack_into("<QQ", out, it.table + it.at_strings * SECTION.size + 24, len(out), len(strings))
    return bytes(out + strings)


def meaning(it, names):
    """What a linker makes of an object with these names: sections, to what each relocation leads, and global symbols."""

    def known_as(symbol):
        name = it.name(symbol)
        return names.get(name, name) if symbol[1] >> 4 == GLOBAL else name

    kept = [at for at, header in enumerate(it.headers) if header[2] & IS_LOADED or it.names[at] == ".comment"]
    sections = []
    for at in kept:
        _, kind, flags, _, _, size, _, _, alignment, each = it.headers[at]
        sections.append((it.names[at], kind, flags, size, alignment, each, it.content(at)))
    leads = []
    for target, each in it.relocations():
        for place, kind, more, symbol in each:
            home = it.names[symbol[3]] if symbol[3] < len(it.names) else symbol[3]
            leads.append((it.names[target], place, kind, more, known_as(symbol), symbol[1], home, symbol[4]))
    of_all = sorted((known_as(symbol), *symbol[1:3], symbol[4]) for symbol in it.symbols if symbol[1] >> 4)
    return sections, leads, of_all


def read(path):
    """The object in a file."""
    with open(path, "rb") as file:
        return Object(file.read())


def main(words):
    if len(words) != 4 or words[1] not in ("check", "rename", "same"):
        sys.exit(__doc__.strip())
    it = read(words[2])
    if words[1] == "check":
        wrong = list(faults(it, words[3]))
        sys.exit("\n".join(wrong) if wrong else 0)
    if words[1] == "rename":
        with open(words[3], "wb") as file:
            file.write(renamed(it, names_of_system()))
    elif meaning(it, names_of_system()) == meaning(read(words[3]), {}):
        print("the same but for the names of symbols")
    else:
        sys.exit("they differ in more than names of symbols")


if __name__ == "__main__":
    main(sys.argv)
