#!/usr/bin/env python3
"""Prints a trace with each finding under its line, or its findings for a program to read: annotate [--format FORMAT] [TRACE]

The findings, their positions and their explanations come from the program capcheck. Nothing is judged here. The formats:

  text  each line of the trace, with its findings under it
  html  one page that needs no network: the lines, their findings and explanations, and filters
  json  the findings as one document, which docs/capcheck-annotate.1 describes
  gcc   the findings as compilers print errors: FILE:LINE: and words

Exit status: that of capcheck: 0 where nothing was found, 1 where something was, 2 where the trace was refused, 3 where there
is no answer.
"""

import argparse
import base64
import collections
import hashlib
import html
import json
import os
import re
import shlex
import shutil
import subprocess
import sys
import tempfile
from typing import NamedTuple, Optional

LAST_DESCRIPTOR = 1_048_575
LONGEST_EXPLANATION = 100  # lines; the rest of a longer one is left out

# Calls whose number arguments are descriptors, and those whose answer is one or two. This is for the page's filter alone.
# tools/calls.py: descriptors
TAKES = set("""read readv recvfrom recvmsg pread preadv write writev pwrite pwritev lseek fstat fstatfs fsync fdatasync
    ftruncate fchmod fchown fchflags fchdir flock fpathconf futimes futimens ioctl accept bind connect listen shutdown
    getpeername getsockname getsockopt setsockopt fexecve close closefrom dup cap_ioctls_limit cap_fcntls_limit sendto
    sendmsg accept4 dup2 fcntl mmap cap_rights_limit mkdirat mkfifoat mknodat readlinkat futimesat openat unlinkat
    fstatat fchmodat fchownat chflagsat utimensat symlinkat renameat linkat @start @foreign @uses @refused""".split())
MAKES = set("accept dup accept4 dup2 open openat socket socketpair pipe2 pipe kqueue shm_open mq_open fhopen".split())
# end
MAKES.update(f"fcntl,{command}" for command in ("F_DUPFD", "F_DUPFD_CLOEXEC", "F_DUP2FD", "F_DUP2FD_CLOEXEC"))
QUOTED = re.compile(r'"(?:[^"\\]|\\.)*"')
SAYS_REFUSED = re.compile(rb"[0-9]+ @refused\(")
LINK = re.compile(r"([0-9]+|mode) (?:([0-9]+) .*|(start .*))")
DENIAL = re.compile(r"lacks [0-9]+ [A-Z_|]+|inside|unexplained")  # what was lacking for a refused line: no link

# The words for each kind of finding, and for each code of a line that can't be read.
WORDS = {
    "missing": "missing {rights} on {descriptor}",
    "expanded": "expanded by {rights} on {descriptor}",
    "closed": "closed descriptor {descriptor}",
    "forbidden": "forbidden in capability mode",
    "refusal": "refusal with errno 93, though every right was there",
    "moderefusal": "moderefusal with errno 94, outside capability mode or though that mode allows it",
}
# What is added where a marker has the finding: it speaks of a call.
OF_MARKERS = {"@uses": ", which a call needed", "@global": ", and a call succeeded"}
FAULTS = {
    "E1": "the line has more than 1,024 bytes",
    "E2": "the shape of the line is wrong",
    "E3": "the number of the process is wrong",
    "E4": "the number of arguments or one of them is wrong",
    "E5": "a right is wrong",
    "E6": "the result is wrong",
    "E8": "the line comes after the 1,000,000th",
}


class Finding(NamedTuple):
    """A finding, in its parts."""

    call: str
    kind: str
    descriptor: Optional[int]
    rights: list

    @classmethod
    def of(cls, said):
        """The finding that a report spells, after the position and the process."""
        call, kind, *rest = said.split(" ")
        return cls(call, kind, int(rest[0]) if rest else None, rest[1].split("|") if rest[1:] else [])

    def words(self):
        """What is wrong, in words."""
        form = WORDS.get(self.kind, self.kind) + OF_MARKERS.get(self.call, "")
        return form.format(rights="|".join(self.rights), descriptor=self.descriptor)


class Row(NamedTuple):
    """A line of the file, and what is said of it."""

    number: int  # as an editor counts
    position: Optional[int]  # as a report counts; None of a comment, an empty line, and a line that is refused
    line: bytes
    end: int  # where it ends in the file
    said: list  # each finding as the report spells it, after the position and the process; or "refused" and the code

    def pid(self):
        """The process of a line with a position."""
        return int(self.line.split(b" ", 1)[0])


class Explanation(NamedTuple):
    """The lines that the findings of a line rest on."""

    links: list  # pairs: a descriptor or "mode", and a position or what was known before the trace
    omitted: int  # how many more links there are


class Program:
    """The program capcheck, and the options for it."""

    def __init__(self, plan):
        beside = shutil.which("capcheck", path=os.path.dirname(os.path.abspath(__file__)))
        self.path = plan.capcheck or beside or shutil.which("capcheck")
        if not self.path:
            raise ValueError("there is no capcheck beside this program or on PATH; --capcheck PATH says where it is")
        self.options = ["--start", plan.start] if plan.start else []
        self.options += ["--profile", plan.profile] if plan.profile else []

    def run(self, command, trace, *words):
        """The exit status and the printed lines of a command, with the trace on standard input."""
        done = subprocess.run([self.path, command, *self.options, *words], input=trace, stdout=subprocess.PIPE)
        return done.returncode, done.stdout.decode("latin-1").removesuffix("\n").split("\n")

    def replies(self, trace, script, end):
        """The replies of one session to the lines of a script, each with its lines before the one that begins with `end`."""
        with tempfile.NamedTemporaryFile() as file, tempfile.TemporaryFile() as asked:
            file.write(trace)
            file.flush()
            asked.write(script)
            asked.seek(0)
            with subprocess.Popen([self.path, "edit", *self.options, file.name], stdin=asked, stdout=subprocess.PIPE) as session:
                lines = []
                for line in session.stdout:
                    lines.append(line.decode("latin-1").removesuffix("\n"))
                    if lines[-1].startswith(f"{end} "):
                        yield lines[:-1]
                        lines = []
        if lines:
            raise ValueError(f"{self.path} replied {lines[0]!r}")


class Answer:
    """The report of a trace."""

    def __init__(self, program, trace):
        self.status, lines = program.run("check", trace)
        self.last = lines.pop()  # "findings 4", or what was refused
        self.findings = {}  # by position: each finding without position and process
        refused = re.fullmatch("refused (E[0-9]+) line ([0-9]+)", self.last)
        self.refused = (int(refused[2]), refused[1]) if refused else None  # the line of the file, and the code
        self.fault = FAULTS.get(refused[1], "the line can't be read") if refused else None
        for line in lines:
            position, _, finding = line.split(" ", 2)
            self.findings.setdefault(int(position), []).append(finding)
        self.count = sum(map(len, self.findings.values()))
        if self.status in (0, 1):
            if self.last != f"findings {self.count}" or bool(self.count) != bool(self.status):
                raise ValueError(f"{program.path} printed no report: {self.last!r}")

    def rows(self, trace):
        """Each line of the file, up to one that is refused."""
        position, end = 0, 0
        lines = trace.split(b"\n")
        if lines[-1] == b"":
            lines.pop()
        if self.findings and max(self.findings) > sum(bool(line) and not line.startswith(b"#") for line in lines):
            raise ValueError("capcheck reported more lines than the trace has")
        for number, line in enumerate(lines, 1):
            end += len(line) + 1
            if self.refused and number == self.refused[0]:
                yield Row(number, None, line, end, [f"refused {self.refused[1]}"])
                return
            counted = bool(line) and not line.startswith(b"#")
            position += counted
            yield Row(number, position if counted else None, line, end, self.findings.get(position, []) if counted else [])


def shown(line):
    """The text of a line. Bytes that can't be printed are escaped."""
    text = line.decode("utf-8", "backslashreplace")
    if text.isprintable():
        return text
    return "".join(letter if letter.isprintable() else f"\\x{ord(letter):02x}" for letter in text)


def descriptors_of(line):
    """The descriptors that a line names."""
    name, _, rest = line.decode("latin-1").partition(" ")[2].partition("(")
    args, _, answer = rest.rpartition(") RET ") if ") RET " in rest else (rest.removesuffix(")"), "", "")
    words = (QUOTED.sub("", args) if '"' in args else args).split(",") if name in TAKES else []
    made = f"{name},{words[1]}" if name == "fcntl" and len(words) > 1 else name
    if made in MAKES and answer:
        words += answer.split(",")
    elif name == "pdfork" and answer:
        words += answer.split(",")[1:]
    return sorted({int(word) for word in words if len(word) < 8 and word.isdecimal() and int(word) <= LAST_DESCRIPTOR})


def errno_of(line):
    """93 or 94 where the kernel refused the call with it, 93 of the marker that says so, else 0."""
    if line.endswith((b") RET -1 errno 93", b") RET -1 errno 94")):
        return int(line[-2:])
    return 93 if b" @refused(" in line and SAYS_REFUSED.match(line) else 0


def explanation_of(program, row, lines):
    """The explanation of a row with findings, from these lines."""
    head = [said.split(" ", 1)[1] for said in row.said]
    links = [LINK.fullmatch(line) for line in lines[1 + len(head):] if not DENIAL.fullmatch(line)]
    if lines[0].split(" ", 1)[0] != str(row.position) or lines[1:1 + len(head)] != head or not all(links):
        raise ValueError(f"{program.path} printed no explanation of line {row.position}: {lines[0]!r}")
    pairs = [(link[1], int(link[2]) if link[2] else link[3]) for link in links[:LONGEST_EXPLANATION]]
    return Explanation(pairs, len(links) - len(pairs))


def chosen(rows, most):
    """At most so many of these rows, the first of each process and finding, then the second of each, and so on."""
    seen = collections.Counter()
    ranked = []
    for row in rows:
        kind = (row.pid(), *row.said)
        ranked.append((seen[kind], row))
        seen[kind] += 1
    return [row for _, row in sorted(ranked, key=lambda each: each[0])[:most]]


def explanations(program, trace, rows, most):
    """Explanations of at most so many lines with findings, by position."""
    rows = sorted(chosen([row for row in rows if row.position and row.said], most), key=lambda row: row.position)
    if not rows:
        return {}
    script = b"".join(b"explain %d\n" % row.position for row in rows)
    replies = program.replies(trace[: rows[-1].end], script, "explained")
    told = {row.position: explanation_of(program, row, lines) for row, lines in zip(rows, replies)}
    if len(told) < len(rows):
        raise ValueError(f"{program.path} explained {len(told)} of {len(rows)} lines")
    return told


def print_text(rows, answer, digits, write):
    """Writes the trace, with the findings under its lines. Positions have at most so many digits."""
    wide = max(5, digits)
    for row in rows:
        write(f"{row.position or '':>{wide}}  {shown(row.line)}".rstrip() + "\n")
        for said in row.said:
            write(f"{'':>{wide}}  ^ {said}\n")
    write(answer.last + "\n")


def print_gcc(rows, answer, name, write):
    """Writes the findings as compilers print errors."""
    for row in rows:
        for said in row.said:
            if answer.refused:
                what = f"{said}: {answer.fault}"
            else:
                finding = Finding.of(said)
                what = f"{row.pid()} {finding.call}: {finding.words()}"
            write(f"{name}:{row.number}: {what}\n")


def linked(rows, links):
    """The links of an explanation, as the document has them."""
    for about, place in links:
        row = rows.get(place)
        yield {
            "about": about if about == "mode" else int(about),
            "line": row and row.number,
            "position": row and row.position,
            "text": shown(row.line) if row else place,
        }


def described(row, said, explanation, rows):
    """A finding, as the document has it."""
    finding = Finding.of(said)
    return {
        "line": row.number,
        "position": row.position,
        "pid": row.pid(),
        **finding._asdict(),
        "message": finding.words(),
        "text": shown(row.line),
        "explanation": list(linked(rows, explanation.links)) if explanation else None,
        "omitted": explanation.omitted if explanation else 0,
    }


def print_json(rows, answer, explained, name, write):
    """Writes the findings as one document."""
    document = {"file": shown(os.fsencode(name)), "refused": None, "count": answer.count, "findings": []}
    if answer.refused:
        line, code = answer.refused
        document["refused"] = {"line": line, "code": code, "message": answer.fault, "text": shown(rows[-1].line)}
        document["count"] = None
    else:
        placed = {row.position: row for row in rows if row.position}
        document["findings"] = [
            described(row, said, explained.get(row.position), placed) for row in rows for said in row.said
        ]
    write(json.dumps(document, indent=1) + "\n")


# The page. Its script makes elements for the rows in view only. Texts from the trace are set as text and never read as HTML.
# Every row has the same height: --row in the style, ROW in the script.
PAGE = """<!DOCTYPE html>
<html lang="en">
<head>
<meta charset="utf-8">
<meta name="viewport" content="width=device-width, initial-scale=1">
<meta http-equiv="Content-Security-Policy" content="default-src 'none'; style-src 'unsafe-inline'; script-src '@HASH@'">
<title>@TITLE@</title>
<style>
:root { color-scheme: light dark; --row: 20px; --finding: #b3261e; --refused: #8a5a00;
  --soft: color-mix(in srgb, currentColor 62%, transparent); --line: color-mix(in srgb, currentColor 18%, transparent); }
* { box-sizing: border-box; }
body { margin: 0; height: 100vh; display: flex; flex-direction: column; font: 15px/1.5 system-ui, sans-serif; }
header { padding: .5rem 1rem; border-bottom: 1px solid var(--line); }
h1 { display: inline; margin: 0 1rem 0 0; font-size: 1.1rem; overflow-wrap: anywhere; }
header p { display: inline; }
form { display: flex; flex-wrap: wrap; gap: .3rem 1rem; align-items: center; margin-top: .3rem; }
kbd { padding: 0 .3em; border: 1px solid var(--line); border-radius: 3px; font: 13px ui-monospace, monospace; }
main { flex: 1; min-height: 0; display: flex; }
#findings { flex: 0 1 24rem; border-right: 1px solid var(--line); }
#trace { flex: 1 1 0; }
#findings, #trace { position: relative; min-width: 0; overflow: auto; font: 13px ui-monospace, monospace; }
.rows { position: absolute; left: 0; min-width: 100%; width: max-content; }
.row { height: var(--row); line-height: var(--row); padding-right: 1rem; white-space: pre; overflow: hidden;
  border-left: 4px solid transparent; }
.row a { color: inherit; text-decoration: none; }
.row a:hover { text-decoration: underline; }
.row .number, .position { display: inline-block; width: var(--digits); margin-right: 1ch; text-align: right;
  color: var(--soft); user-select: none; }
.note code, .why { color: var(--soft); }
.finding, .finding a { color: var(--finding); font-weight: 600; }
#trace .finding::before { content: "^ "; }
.finding, .why { padding-left: calc(2 * var(--digits) + 2ch); }
#findings .finding { padding-left: .5rem; }
#findings .finding a { font-weight: 400; }
.line.refused { border-color: var(--refused); background: color-mix(in srgb, var(--refused) 14%, transparent); }
.line.found { border-color: var(--finding); }
.row.current { background: color-mix(in srgb, Highlight 30%, transparent); }
code { font: inherit; }
[hidden] { display: none !important; }
@media (prefers-color-scheme: dark) { :root { --finding: #ff8a80; --refused: #e0b050; } }
@media (max-width: 50rem) {
  main { flex-direction: column; }
  #findings { flex: 0 1 30%; border-right: 0; border-bottom: 1px solid var(--line); }
}
</style>
</head>
<body>
<header>
<h1>@TITLE@</h1>
<p id="last">@LAST@</p>
<form hidden autocomplete="off">
<label>Process <select name="process"><option value="">all</option></select></label>
<label>Descriptor <select name="descriptor"><option value="">all</option></select></label>
<label>Lines <select name="show"><option value="">all</option><option value="findings">with findings</option>
<option value="refused">answered with errno 93 or 94</option><option value="93">answered with errno 93</option>
<option value="94">answered with errno 94</option></select></label>
<label>Search <input name="text" type="text" spellcheck="false"></label>
<output></output>
<span><kbd>n</kbd> next finding, <kbd>p</kbd> previous, <kbd>/</kbd> search, <kbd>Esc</kbd> no filters</span>
</form>
</header>
<noscript><p>This page needs scripts. The format text needs none.</p></noscript>
<main>
<nav id="findings" tabindex="0" aria-label="Findings"></nav>
<section id="trace" tabindex="0" aria-label="Trace"></section>
</main>
<script type="application/json" id="data">@DATA@</script>
<script>@SCRIPT@</script>
</body>
</html>
"""

SCRIPT = r"""
"use strict";
const ROW = 20; // the height of a row in pixels
const TALLEST = 10000000; // the greatest height of a scrolled list in pixels: browsers have a limit
const PART = 1024; // more than the rows of one line; a row is its line times PART, plus its place among them
const CHOICES = 10000; // the most options of a filter
const { lines, notes, command } = JSON.parse(document.getElementById("data").textContent);
const form = document.querySelector("form");
const filters = ["process", "descriptor", "show", "text"];
let current = -1; // the selected line, counted from 0

function make(tag, name, text) {
  const element = document.createElement(tag);
  element.className = name;
  element.textContent = text;
  return element;
}

function link(name, text, line) {
  const element = make("a", name, text);
  element.href = "#" + fragment(line);
  element.dataset.line = line;
  return element;
}

// A scrolled list. Only its rows in view are in the document.
class Pane {
  constructor(element, draw) {
    this.element = element;
    this.draw = draw;
    this.items = [];
    this.space = element.appendChild(make("div", "space", ""));
    this.rows = element.appendChild(make("div", "rows", ""));
    element.addEventListener("scroll", () => this.paint());
    new ResizeObserver(() => this.paint()).observe(element);
  }
  set(items) {
    this.items = items;
    this.space.style.height = Math.min(items.length * ROW, TALLEST) + "px";
  }
  // How many pixels of rows one pixel of scrolling moves: 1, except in very long lists.
  scale() {
    const view = this.element.clientHeight;
    const room = Math.min(this.items.length * ROW, TALLEST) - view;
    return room > 0 ? (this.items.length * ROW - view) / room : 1;
  }
  top() {
    return this.items[Math.floor(this.element.scrollTop * this.scale() / ROW)];
  }
  is_in_view(index) {
    const above = index * ROW - this.element.scrollTop * this.scale();
    return above >= 0 && above + ROW <= this.element.clientHeight;
  }
  // Scrolls to an item, so that this share of the pane is above it.
  scroll_to(index, share) {
    this.element.scrollTop = (index * ROW - this.element.clientHeight * share) / this.scale();
    this.element.scrollLeft = 0;
    this.paint();
  }
  paint() {
    const above = this.element.scrollTop * this.scale();
    const first = Math.max(0, Math.floor(above / ROW) - 5);
    const past = Math.ceil((above + this.element.clientHeight) / ROW) + 5;
    this.rows.style.top = this.element.scrollTop - (above - first * ROW) + "px";
    this.rows.replaceChildren(...this.items.slice(first, past).map(this.draw));
  }
}

// The rows under a line: its findings, and the lines that they rest on, with their targets.
function notes_of(line, [findings, why, omitted]) {
  const more = command + " " + lines[line][0];
  const rows = findings.map(text => ({ kind: "finding", text }));
  for (const [about, place] of why || []) {
    const name = about === "mode" ? "mode: " : "descriptor " + about + ": ";
    const leads = typeof place === "number";
    const text = name + (leads ? "line " + (place + 1) + "  " + lines[place][1] : place);
    rows.push({ kind: "why", text, target: leads ? place : undefined });
  }
  if (!why) rows.push({ kind: "why", text: "explained by: " + more });
  if (omitted) rows.push({ kind: "why", text: "and " + omitted + " more: " + more });
  return rows;
}

const under = new Map(notes.map(([line, ...rest]) => [line, notes_of(line, rest)]));
const found = notes.flatMap(([line, findings]) => findings.map((_, index) => line * PART + index + 1));

function draw_line(line) {
  const [position, text, , errno] = lines[line];
  const row = make("div", "row line", "");
  row.classList.toggle("found", under.has(line));
  row.classList.toggle("refused", errno > 0);
  row.classList.toggle("note", !position && !under.has(line));
  row.classList.toggle("current", line === current);
  const number = link("number", line + 1, line);
  const place = make("span", "position", position || "");
  number.title = "line of the file";
  place.title = "position in a report";
  row.append(number, place, make("code", "", text));
  return row;
}

function draw_row(item) {
  const line = Math.floor(item / PART);
  if (item % PART === 0) return draw_line(line);
  const { kind, text, target } = under.get(line)[item % PART - 1];
  const row = make("div", "row " + kind, "");
  row.append(target === undefined ? text : link("", text, target));
  return row;
}

function draw_finding(item) {
  const line = Math.floor(item / PART);
  const [, , pid] = lines[line];
  const { text } = under.get(line)[item % PART - 1];
  const row = make("div", "row finding", "");
  row.classList.toggle("current", line === current);
  row.append(link("", [line + 1, pid, text].filter(part => part).join(" "), line));
  return row;
}

const trace = new Pane(document.getElementById("trace"), draw_row);
const list = new Pane(document.getElementById("findings"), draw_finding);

// The text in which a search looks: a line and its findings.
function searched(line) {
  const findings = (under.get(line) || []).filter(row => row.kind === "finding").map(row => row.text);
  return [lines[line][1], ...findings].join("\n").toLowerCase();
}

// Whether a filter with this value leaves a line.
const passes = {
  process: (line, value) => lines[line][2] === Number(value),
  descriptor: (line, value) => lines[line].includes(Number(value), 4),
  show: (line, value) => value === "findings" ? under.has(line)
    : value === "refused" ? lines[line][3] > 0 : lines[line][3] === Number(value),
  text: (line, value) => searched(line).includes(value.toLowerCase()),
};

function fragment(line) {
  const words = new URLSearchParams();
  for (const name of filters) if (form.elements[name].value) words.set(name, form.elements[name].value);
  if (line >= 0) words.set("line", line + 1);
  return words.toString();
}

// Shows the lines that the filters leave, around the selected line, or else from the line on top.
function filter() {
  const top = current < 0 ? trace.top() || 0 : current * PART;
  const active = filters.map(name => [passes[name], form.elements[name].value]).filter(([, value]) => value);
  const items = [];
  let count = 0;
  for (let line = 0; line < lines.length; line++) {
    if (!active.every(([pass, value]) => pass(line, value))) continue;
    count++;
    items.push(line * PART);
    for (let index = 1; index <= (under.get(line) || []).length; index++) items.push(line * PART + index);
  }
  trace.set(items);
  document.querySelector("output").textContent = count + " of " + lines.length + " lines";
  const index = items.findIndex(item => item >= top);
  trace.scroll_to(index < 0 ? items.length - 1 : index, current < 0 ? 0 : 1 / 4);
  list.paint();
}

// Selects a line, and clears the filters that hide it.
function go(line) {
  current = line;
  for (const name of filters) {
    const field = form.elements[name];
    if (field.value && !passes[name](line, field.value)) field.value = "";
  }
  filter();
  const index = found.findIndex(item => Math.floor(item / PART) === line);
  if (index >= 0 && !list.is_in_view(index)) list.scroll_to(index, 1 / 4);
}

// Writes the filters and the selected line to the address.
function keep() {
  history.replaceState(null, "", "#" + fragment(current));
}

// Reads the filters and the selected line from the address.
function read() {
  const words = new URLSearchParams(location.hash.slice(1));
  for (const name of filters) {
    const field = form.elements[name];
    field.value = words.get(name) || "";
    if (field.selectedIndex < 0) field.value = "";
  }
  const line = Number(words.get("line")) - 1;
  if (line in lines) {
    go(line);
    keep();
  } else {
    current = -1;
    filter();
  }
}

// Selects the next or the previous line with findings that the filters leave.
function step(forward) {
  const left = trace.items.filter(item => item % PART === 1).map(item => Math.floor(item / PART));
  const next = forward ? left.find(line => line > current) : left.findLast(line => line < current || current < 0);
  if (next === undefined) return;
  go(next);
  keep();
}

function search() {
  form.elements.text.focus();
  form.elements.text.select();
}

function clear() {
  for (const name of filters) form.elements[name].value = "";
  filter();
  keep();
}

const keys = { n: () => step(true), p: () => step(false), "/": search, Escape: clear };

document.addEventListener("keydown", event => {
  if (event.ctrlKey || event.metaKey || event.altKey) return;
  const typing = event.target === form.elements.text;
  if (typing && event.key !== "Escape" || !(event.key in keys)) return;
  event.preventDefault();
  if (typing) trace.element.focus();
  else keys[event.key]();
});

document.addEventListener("click", event => {
  const target = event.target.closest("a[data-line]");
  if (!target || event.ctrlKey || event.metaKey || event.shiftKey) return;
  event.preventDefault();
  const line = Number(target.dataset.line);
  go(line);
  history.pushState(null, "", "#" + fragment(line));
  trace.element.focus({ preventScroll: true });
});

form.addEventListener("input", () => { filter(); keep(); });
form.addEventListener("submit", event => { event.preventDefault(); trace.element.focus(); });
window.addEventListener("hashchange", read);

function choices(name, values) {
  const sorted = [...new Set(values)].sort((one, other) => one - other);
  for (const value of sorted.slice(0, CHOICES)) form.elements[name].append(new Option(value, value));
}

choices("process", lines.map(line => line[2]).filter(pid => pid));
choices("descriptor", lines.flatMap(line => line.slice(4)));
document.body.style.setProperty("--digits", Math.max(3, String(lines.length).length) + "ch");
form.hidden = false;
list.set(found);
list.element.hidden = !found.length;
trace.element.focus({ preventScroll: true });
read();
"""


def page_data(rows, explained, command):
    """The data of the page. Each line is a list: its position, its text, its process, errno 93 or 94, and its descriptors; 0 where
    there is none. Each note is a list too: the place of a line with findings in that list, its findings, its explanation, and how
    many links of that are omitted. An explanation is null, or pairs: a descriptor or "mode", and the place of a line or what was
    known before the trace."""
    named = {known for why in explained.values() for _, known in why.links}
    places = {row.position: place for place, row in enumerate(rows) if row.position in named}
    lines, notes = [], []
    for place, row in enumerate(rows):
        read = row.position is not None
        more = [row.pid(), errno_of(row.line), *descriptors_of(row.line)] if read else [0, 0]
        lines.append([row.position or 0, shown(row.line), *more])
        if row.said:
            why, omitted = explained.get(row.position, (None, 0)) if read else ([], 0)
            why = [[about, places.get(known, known)] for about, known in why] if why is not None else None
            notes.append([place, row.said, why, omitted])
    return {"lines": lines, "notes": notes, "command": command}


def print_page(rows, answer, explained, name, command, write):
    """Writes the page."""
    data = json.dumps(page_data(rows, explained, command), separators=(",", ":"))
    last = answer.last + (f": {answer.fault}" if answer.refused else "")
    found = sum(bool(row.position and row.said) for row in rows)
    if len(explained) < found:
        last += f"; {len(explained)} of the {found} lines with findings are explained here (--explain N: more)"
    parts = {
        "TITLE": html.escape(shown(os.fsencode(name))),
        "LAST": html.escape(last),
        "HASH": "sha256-" + base64.b64encode(hashlib.sha256(SCRIPT.encode()).digest()).decode(),
        "DATA": data.replace("<", r"\u003c"),
        "SCRIPT": SCRIPT,
    }
    write(re.sub("@([A-Z]+)@", lambda found: parts[found[1]], PAGE))


def amount(text):
    """A number on the command line."""
    if not re.fullmatch("[0-9]{1,9}", text, re.ASCII):
        raise argparse.ArgumentTypeError(f"{text!r} is no number")
    return int(text)


def parse(words):
    """The command line."""
    parser = argparse.ArgumentParser(
        description="Prints a trace with each finding under its line, or its findings for a program to read.",
        epilog="The status is that of capcheck.",
    )
    parser.add_argument("trace", nargs="?", default="-", help="standard input where none is named, or -")
    parser.add_argument("--format", choices=["text", "html", "json", "gcc"], default="text", help="by default text")
    parser.add_argument("--explain", metavar="N", type=amount, default=200,
                        help="in html and json, how many lines with findings are explained; by default 200")
    parser.add_argument("--capcheck", metavar="PATH", help="the program; by default capcheck in this folder, or else on PATH")
    parser.add_argument("--profile", metavar="N", help="passed to capcheck")
    parser.add_argument("--start", metavar="FILE", help="passed to capcheck")
    return parser.parse_args(words)


def main():
    """Does what the command line says; what goes wrong is a sentence on standard error."""
    name = os.path.basename(sys.argv[0])
    try:
        sys.exit(run(parse(sys.argv[1:]), name))
    except BrokenPipeError:
        sys.stdout = None
        sys.exit(3)
    except (OSError, ValueError) as why:
        print(f"{name}: {why}", file=sys.stderr)
        sys.exit(3)


def read(name):
    """The trace."""
    if name == "-":
        return sys.stdin.buffer.read()
    with open(name, "rb") as file:
        return file.read()


def run(plan, own_name):
    """Writes the trace in the wanted format, and answers the exit status."""
    trace = read(plan.trace)
    program = Program(plan)
    answer = Answer(program, trace)
    if answer.status not in (0, 1) and not answer.refused:
        if answer.last:
            print(f"{own_name}: {answer.last}", file=sys.stderr)
        return answer.status if answer.status in (2, 3) else 3
    rows = list(answer.rows(trace))
    name = "<stdin>" if plan.trace == "-" else plan.trace
    wanted = plan.explain if plan.format in ("html", "json") else 0
    explained = explanations(program, trace, rows, wanted)
    output = sys.stdout.buffer

    def write(piece):
        output.write(piece.encode("utf-8", "surrogateescape"))

    if plan.format == "text":
        print_text(rows, answer, len(str(trace.count(b"\n") + 1)), write)
    elif plan.format == "gcc":
        print_gcc(rows, answer, name, write)
    elif plan.format == "json":
        print_json(rows, answer, explained, name, write)
    else:
        command = shown(os.fsencode(shlex.join(["capcheck", "explain", *program.options, plan.trace])))
        print_page(rows, answer, explained, name, command, write)
    output.flush()
    return answer.status


if __name__ == "__main__":
    main()
