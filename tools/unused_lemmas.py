#!/usr/bin/env python3
"""Lemmas that nothing cites, and lemmas that say the same: tools/unused_lemmas.py

Prints each definition of proofs/ and specs/ that no answer, no contract and no other definition names; the lemmas of a crate that
have the same statement, up to the names of variables; and each name that a `ghost use` in a .rt file imports for nothing (`rt tidy`
does that for .antt files). It reads the sources and proves nothing, so check the crate after you removed something. The status is 1
where it printed anything.
"""

import collections
import os
import re
import sys

ROOT = os.path.join(os.path.dirname(os.path.dirname(os.path.abspath(__file__))), "crates")
USE = {
    ".antt": re.compile(r"^ *(?:pub )?use ([^\s{]+?)(?:\.\{([^}]*)\})?(?: as (\S+))?$", re.M),
    ".rt": re.compile(r"^ *(?:pub )?ghost use ([^;{]+?)(?:\.\{((?:[^{}]|\{[^{}]*\})*)\})?(?: as ([^;]+))?;", re.M),
}
INNER = re.compile(r"([\w.]+)\.\{([^{}]*)\}")  # a list in such a list
COMMENT = {".antt": re.compile(r"(?:^|(?<=\s))--[^\n]*"), ".rt": re.compile(r"//[^\n]*")}
CITED = re.compile(r"crate::((?:proofs|specs)::[\w:]+)")  # in an attribute of a contract
WORD = re.compile(r"[A-Za-z_][\w\-']*")
DEFINED = re.compile(r"^(?:(?:pub|abbrev|unfoldable|opaque|record|data|ruleset)\s+)*([A-Za-z_][^\s:({]*)")
BOUND = re.compile(r"[({]([^(){}:]*?) :")
NOT_DEFINED = re.compile(r"(pub )?(use|mod|module|unfolding|infix[lr]?) ")


class Source:
    """A file of a crate: what it imports, as names by module, and its lines without imports and comments."""

    def __init__(self, path):
        self.path, kind = os.path.relpath(path, ROOT), os.path.splitext(path)[1]
        self.crate, self.module = self.path.split("/")[0], "Rattle." + self.path[: -len(kind)].replace("/", ".")
        with open(path, encoding="utf-8") as file:
            text = COMMENT[kind].sub("", file.read())
        self.imports = collections.defaultdict(dict)  # by module, the name here of each name there
        for module, names, alias in USE[kind].findall(text):
            if names:
                names = INNER.sub(lambda it: ", ".join(f"{it[1]}.{name.strip()}" for name in it[2].split(",")), names)
                for path, _, here in (it.strip().partition(" as ") for it in names.split(",")):
                    below, _, name = path.rpartition(".")
                    self.imports[f"{module}.{below}" if below else module][name] = here or name
            else:
                above, _, name = module.rpartition(".")
                self.imports[above][name] = alias or name
        for cited in CITED.findall(text) if kind == ".rt" else []:
            module, _, name = f"Rattle.{self.crate}.{cited.replace('::', '.')}".rpartition(".")
            self.imports[module][name] = name
        self.lines = USE[kind].sub(lambda it: "\n" * it[0].count("\n"), text).split("\n")
        self.body = "\n".join(self.lines)
        self.words = [set(WORD.findall(line)) for line in self.lines]

    def definitions(self):
        """The lines of each definition, by name. Those of a parametrized module count as lines of none."""
        found, name = collections.defaultdict(set), None
        for at, line in enumerate(self.lines):
            if line.strip() and line[0] not in " \t})]":
                match = DEFINED.match(line)
                name = match[1] if match and not NOT_DEFINED.match(line) else None
            if name:
                found[name].add(at)
        return found

    def names(self, name, without=frozenset()):
        """Whether a line other than these names it."""
        return any(name in words for at, words in enumerate(self.words) if at not in without)


def sources():
    for folder, folders, files in os.walk(ROOT):
        folders[:] = sorted(it for it in folders if it != "out")
        yield from (Source(os.path.join(folder, it)) for it in sorted(files) if it.endswith((".antt", ".rt")))


def follow(files):
    """Has each file import what a Lib.antt passes on by a glob from where it is declared."""
    by_module = {it.module: it for it in files}
    passed = {}  # by the module of a Lib.antt, where each name comes from
    for file in files:
        for child in [it for it, names in file.imports.items() if "*" in names]:
            above = file.module.removesuffix(".Lib")
            taken = by_module[f"{above}.{child}"].imports.items()
            passed[above] = {here: (module, name) for module, names in taken for name, here in names.items()}
    for file in files:
        for above, origins in passed.items():
            for name in [it for it in file.imports.get(above, ()) if it in origins]:
                module, there = origins[name]
                file.imports[module][there] = file.imports[above].pop(name)


def uncited(files):
    """Definitions that nothing cites but others of these."""
    shared = [it for it in files if re.search(r"/(proofs|specs)/[A-Z][^/]*\.antt$", it.path) and not it.path.endswith("/Lib.antt")]
    left = {(it.path, name): (it, lines) for it in shared for name, lines in it.definitions().items()}
    gone = collections.defaultdict(set)  # by path, the lines that don't count
    importers = collections.defaultdict(list)
    for file in files:
        for module in file.imports:
            importers[module].append(file)

    def is_cited(file, name, lines):
        if file.names(name, lines | gone[file.path]):
            return True
        return any(
            name in it.imports[file.module] and (it.path.endswith(".rt") or it.names(it.imports[file.module][name], gone[it.path]))
            for it in importers[file.module]
        )

    while more := [it for it, (file, lines) in left.items() if not is_cited(file, it[1], lines)]:
        for path, name in more:
            gone[path] |= left.pop((path, name))[1]
            yield f"{path}: nothing cites {name}"


def statements(file):
    """The statement of each lemma of a file, with its variables numbered."""
    at = 0
    while at < len(file.lines):
        line = file.lines[at]
        match = re.match(r"^(?:pub )?([A-Za-z_][^\s:({]*)\s*:\s(.*)", line)
        at += 1
        if match:
            said = match[2]
            while at < len(file.lines) and file.lines[at].startswith(" "):
                said += " " + file.lines[at].strip()
                at += 1
            for number, name in enumerate(dict.fromkeys(" ".join(BOUND.findall(said)).split())):
                said = re.sub(rf"(?<![\w\-'.]){re.escape(name)}(?![\w\-'])", f"v{number}", said)
            yield match[1], " ".join(said.split())


def said_twice(files):
    """Lemmas of one crate that say the same."""
    found = collections.defaultdict(list)
    for file in files:
        if "/proofs/" in file.path:
            for name, said in statements(file):
                if re.search(r"[≡<≤↔⊎⊥]", said) and "goal." not in said:
                    found[file.crate, said].append(f"{file.path} {name}")
    return (" and ".join(it) + " say the same" for it in found.values() if len(it) > 1)


def stands_in(name, body):
    """Whether a name is in a text; of an operator, its signs."""
    parts = [it for it in name.split("◌") if it] if "◌" in name else [name]
    parts = ["then"] if name == "if◌then◌else◌" else parts
    return all(re.search(rf"(?<![\w\-]){re.escape(it)}(?![\w\-])" if it[0].isalnum() else re.escape(it), body) for it in parts)


def imported_for_nothing(files):
    for file in files:
        if file.path.endswith(".rt"):
            for names in file.imports.values():
                for name in names.values():
                    if not stands_in(name, file.body):
                        yield f"{file.path}: imports {name} for nothing"


def main():
    files = list(sources())
    follow(files)
    said = [*uncited(files), *said_twice(files), *imported_for_nothing(files)]
    print(*said, sep="\n", end="\n" if said else "")
    sys.exit(1 if said else 0)


main()
