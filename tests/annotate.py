"""What contrib/annotate.py prints in each of its formats, for the examples and the traces of cases/annotate.md.

Findings and explanations must be those of the program, at the right lines. A parser of HTML reads the page: its elements are
nested, its data are the trace's lines, and nothing in it comes from elsewhere. tests/annotate_page.py tests its script, in a browser.
"""

import base64
import hashlib
import html.parser
import json
import os
import re
import shlex
import shutil
import sys

import cases
import harness
import reference

CASES, EXAMPLES = os.path.join(harness.HERE, "cases", "annotate.md"), os.path.join(harness.ROOT, "examples")
KINDS = "each kind of finding"  # the case
NASTY = "bytes that must not be read as HTML, as the end of the data, or shown as they are"  # and this one
ADDRESSES, FOREIGN = ("src", "href", "action", "srcset", "style"), ("link", "img", "iframe", "object", "base", "b")
# The findings are at 3, 4 and 5 (the same), 6, and 8, of another process. How many are explained, and which these are.
REPEATED = "100 @start(0,3)\n100 cap_rights_limit(0,NONE) RET 0\n" + "100 read(0) RET 1\n" * 3 + "100 write(0) RET 1\n100 fork() RET 101\n101 read(0) RET 1\n"
EXPLAINED = ([], [3], [3, 6], [3, 6, 8], [3, 4, 6, 8], [3, 4, 5, 6, 8])


class Page(html.parser.HTMLParser):
    """The title of a page, its data, its script, and whether each element ends where it must and nothing comes from elsewhere."""

    def __init__(self, text):
        super().__init__()
        self.open, self.faults, self.texts, self.policy, self.last = [], [], {}, "", ""
        self.feed(text)
        self.close()
        self.data = {**json.loads(self.texts["data"]), "last": self.texts["last"]}
        hashed = base64.b64encode(hashlib.sha256(self.texts["script"].encode()).digest()).decode()
        is_own = self.policy == f"default-src 'none'; style-src 'unsafe-inline'; script-src 'sha256-{hashed}'"
        self.faults += [f"open at the end: {self.open}"] * bool(self.open) + ["a < in the data"] * ("<" in self.texts["data"])
        self.faults += [] if is_own else [f"the policy is {self.policy}"]

    def handle_starttag(self, tag, attributes):
        attributes = dict(attributes)
        if tag in FOREIGN or any(name in ADDRESSES or name.startswith("on") for name in attributes):
            self.faults.append(f"{tag} {attributes}")
        self.policy = attributes["content"] if "http-equiv" in attributes else self.policy
        if tag not in ("meta", "input"):
            self.open.append(tag)
            self.last = attributes.get("id", tag)
            self.texts[self.last] = ""

    def handle_endtag(self, tag):
        if not self.open or self.open.pop() != tag:
            self.faults.append(f"the end of {tag} at {self.getpos()}")
        self.last = ""

    def handle_data(self, text):
        if self.last:
            self.texts[self.last] += text


def shown(line):
    """A line of a file as it must be shown."""
    text = line.encode("latin1").decode("utf-8", "backslashreplace")
    return "".join(each if each.isprintable() else f"\\x{ord(each):02x}" for each in text)


def errno_of(line):
    """The errno that a line of a trace says, where the page has it."""
    refused = re.search(r"\) RET -1 errno (9[34])$", line)
    return 93 if " @refused(" in line else int(refused[1]) if refused else 0


class Trace:
    """A trace, with what the program finds in it with these options."""

    def __init__(self, path, options):
        lines = reference.lines_of(harness.text_of(path, "latin1"))
        self.path, self.options = path, options
        self.lines, self.positions = list(map(shown, lines)), reference.positions(lines)
        self.status, self.report, _ = harness.capcheck("check", *options, path)

    def of_lines(self, value):
        """A value of each line that isn't skipped, and 0 of the others."""
        return tuple(value(line) if at else 0 for at, line in zip(self.positions, self.lines))

    def explains(self, position, links):
        """Whether the program explains a line by these links, which are pairs: what it is about, and a position or what is known."""
        head = sum(line.startswith(f"{position} ") for line in self.report.splitlines())
        lines = reference.lines_of(harness.capcheck("explain", *self.options, self.path, str(position)).out)[1 + head :]
        wanted = [line for line in lines if line[0].isdigit() or line.startswith("mode ")]
        begins = [f"{about} {known}" if isinstance(known, str) else f"{about} {known} " for about, known in links]
        return len(wanted) == len(begins) and all(map(str.startswith, wanted, begins))


def rows_of(text):
    """The lines of the text, the report that it makes, and its last line."""
    *lines, last = text.splitlines() or [""]
    rows, report = [], ""
    for line in lines:
        if re.match(r" +\^ ", line):
            report += f"{position} {rows[-1].split(' ')[0]} {line.lstrip()[2:]}\n"
        else:
            position, rest = re.fullmatch(r" *([0-9]*) *(.*)" if line.strip()[:1].isdigit() else r" *()(.*)", line).groups()
            rows.append(rest)
    return tuple(rows), report + last + "\n"


class Formats(harness.Test):
    """Each format beside the program's report, its explanations and the lines of the trace."""

    def seen(self, what, wanted, got):
        self.same(f"{self.name}: {what}", wanted, got, "comparisons with what annotate prints")

    def annotate(self, form, *words, given=""):
        """The output in a format. There must be an answer, and nothing on standard error."""
        answer = harness.run(["annotate", "--format", form, *words], given, encoding="utf-8")
        self.seen(f"{form} {words}: status and standard error", (True, ""), (answer.status in (0, 1, 2), answer.said))
        return answer.out

    def formats(self, name, path, options=()):
        """Compares each format, and answers the data of the page."""
        self.name, it, text = name, Trace(path, options), harness.run(["annotate", *options, path], encoding="utf-8")
        self.seen("status", (it.status, ""), (text.status, text.said))
        rows, made = rows_of(text.out)
        self.seen("the lines of the text", tuple(line.strip() for line in it.lines), rows)
        self.seen("the report of the text", it.report, made)
        trace = harness.text_of(path, "latin1").encode("latin1")
        for words in ([], ["--format", "text", "-"]):
            self.seen(f"standard input {words}", text, harness.run(["annotate", *options, *words], trace, encoding="utf-8"))
        self.check_json(it)
        return self.check_page(it)

    def check_json(self, it):
        """Compares the document, and the lines for editors that have the same words."""
        document = json.loads(self.annotate("json", *it.options, it.path))
        made, lines = "", []
        for each in document["findings"]:
            parts = [each["position"], each["pid"], each["call"], each["kind"]]
            parts += [] if each["descriptor"] is None else [each["descriptor"]]
            made += " ".join(map(str, parts + ["|".join(each["rights"])] * bool(each["rights"]))) + "\n"
            at, links = each["line"] - 1, each["explanation"]
            lines.append(f"{it.path}:{each['line']}: {each['pid']} {each['call']}: {each['message']}")
            self.seen("the text of a finding", it.lines[at], each["text"])
            self.seen("the position of a finding", it.positions[at], each["position"])
            known = [(link["about"], link["text"] if link["line"] is None else link["position"]) for link in links]
            self.seen(f"explanation of line {at + 1}", True, it.explains(each["position"], known))
            texts = [(it.lines[link["line"] - 1], it.positions[link["line"] - 1]) for link in links if link["line"]]
            self.seen("lines of an explanation", texts, [(link["text"], link["position"]) for link in links if link["line"]])
            self.seen("the message begins with the kind", each["kind"], each["message"].split(" ")[0])
        self.seen("the report of the document", it.report, made + f"findings {document['count']}\n")
        self.seen("file and refusal", (it.path, None), (document["file"], document["refused"]))
        self.seen("the lines of gcc", tuple(lines), tuple(self.annotate("gcc", *it.options, it.path).splitlines()))

    def check_page(self, it):
        """Compares the page."""
        page = Page(self.annotate("html", *it.options, it.path))
        lines, notes = page.data["lines"], page.data["notes"]
        self.seen("faults of the page", [], page.faults)
        self.seen("title", it.path, page.texts["title"])
        wanted = (("positions", tuple(it.positions)), ("lines", tuple(it.lines)), ("processes", it.of_lines(lambda line: int(line.split(" ")[0]))))
        for at, (what, values) in enumerate((*wanted, ("errnos", it.of_lines(errno_of)))):
            self.seen(f"the {what} of the page", values, tuple(line[at] for line in lines))
        made = "".join(f"{lines[at][0]} {lines[at][2]} {said}\n" for at, all_said, _, _ in notes for said in all_said)
        self.seen("the report of the page", it.report, made + page.texts["last"] + "\n")
        for place, _, why, omitted in notes:
            known = [(about, at if isinstance(at, str) else lines[at][0]) for about, at in why]
            self.seen(f"explanation of line {place + 1} in the page", True, it.explains(lines[place][0], known))
            self.seen("omitted", 0, omitted)
        return page.data


class Examples(Formats):
    is_long = True

    def test_examples(self):
        os.chdir(EXAMPLES)
        for path in sorted(name for name in os.listdir(".") if name.endswith(".trace")):
            kept = path.replace(".trace", ".options")
            self.formats(path, path, shlex.split(harness.text_of(kept)) if os.path.exists(kept) else [])


class Cases(Formats):
    """The cases of the text, in all formats, and their pages."""

    is_long = True

    def files_of(self, name):
        """The files of the case of this name, which are written."""
        return next(case for case in cases.cases_of(CASES) if case.name == f"annotate.{name}").save({})

    def test_cases(self):
        for case in cases.cases_of(CASES):
            self.name, files = case.name, case.save({})
            options = files.get("options", "").split()
            status = harness.capcheck("check", *options, "trace").status
            if status < 2:
                self.formats(case.name, "trace", options)
            if "page" in files:
                answer = harness.run(["annotate", "--format", "html", *options, "trace"], encoding="utf-8")
                page = Page(answer.out)
                self.seen("the page's status, and its faults", (status, []), (answer.status, page.faults))
                for what, wanted in json.loads(files["page"]).items():
                    self.seen(what, *(tuple(map(str, it)) if isinstance(it, list) else it for it in (wanted, page.data[what])))

    def test_kinds(self):
        """The case has each kind of finding, and each right by itself."""
        self.name, _ = KINDS, self.files_of(KINDS)
        found = json.loads(self.annotate("json", "trace"))["findings"]
        rules = harness.text_of(f"{harness.ROOT}/docs/RULES.md").split("## Findings")[1].split("## ")[0]
        self.seen("all", set(re.findall(r"^\| `([a-z]+)", rules, re.M)), {each["kind"] for each in found})
        self.seen("rights", ["CAP_FSYNC", "CAP_FSTAT"], found[0]["rights"])

    def test_names(self):
        """Names of files that would be read as HTML, or aren't UTF-8."""
        self.formats("a name of HTML", harness.save("</title><b>&amp;@DATA@.trace", self.files_of(NASTY)["trace"]))
        path = harness.save(os.fsdecode(b"caf\xe9"), "100 @start()\n100 read(1) RET 1\n")
        self.seen("a name that isn't UTF-8", f"{path}:2: 100 read: closed descriptor 1\n", self.annotate("gcc", path))
        self.seen("the same in json", r"caf\xe9", json.loads(self.annotate("json", path))["file"])
        self.seen("the same in html", r"caf\xe9", Page(self.annotate("html", path)).texts["h1"])

    def test_how_many_are_explained(self):
        self.name, path = "how many are explained", harness.save("repeated", REPEATED)
        for most, wanted in enumerate(EXPLAINED):
            data = Page(self.annotate("html", "--explain", str(most), path)).data
            self.seen(f"{most} in html", wanted, [place + 1 for place, _, why, _ in data["notes"] if why is not None])
            note = f"; {most} of the 5 lines with findings are explained here (--explain N: more)" if most < 5 else ""
            self.seen("the page's last line", "findings 5" + note, data["last"])
            found = json.loads(self.annotate("json", "--explain", str(most), path))["findings"]
            self.seen(f"{most} in json", wanted, [each["line"] for each in found if each["explanation"] is not None])
        data = Page(self.annotate("html", harness.save("many", "100 @start()\n" + "100 read(1) RET 1\n" * 300))).data
        self.seen("by default", 200, sum(why is not None for _, _, why, _ in data["notes"]))

    def test_a_long_explanation(self):
        copies = "".join(f"100 dup2({step},{step + 1}) RET {step + 1}\n" for step in range(150))
        trace = f"100 @start(0)\n100 cap_rights_limit(0,NONE) RET 0\n{copies}100 read(150) RET 1\n"
        self.name, path = "a long explanation", harness.save("long", trace)
        wanted = [["150", place] for place in range(151, 51, -1)], 52
        self.seen("html", wanted, tuple(Page(self.annotate("html", path)).data["notes"][0][2:]))
        finding = json.loads(self.annotate("json", path))["findings"][0]
        self.seen("json", (list(range(152, 52, -1)), 52), ([link["line"] for link in finding["explanation"]], finding["omitted"]))


class Tool(Formats):
    """The tool as it is installed, and what its documents say."""

    name = "the tool"

    def test_installed(self):
        """capcheck is looked for beside the installed tool, then on PATH, and --capcheck names another."""
        trace, tool = f"{EXAMPLES}/tool.trace", os.path.abspath("beside/capcheck-annotate")
        for folder in ("beside", "path", "elsewhere"):
            path = harness.save(f"{folder}/capcheck", f"#!/bin/sh\necho '# {folder}' >&2\nexec {shlex.quote(harness.program())} \"$@\"\n")
            os.chmod(path, 0o755)
        shutil.copy(f"{harness.ROOT}/contrib/annotate.py", tool)

        def run(*words, path=f"{os.getcwd()}/path:{os.environ['PATH']}"):
            return harness.run([*words, trace], env={**os.environ, "PATH": path})[::2]

        self.seen("beside", (1, "# beside\n"), run(tool))
        self.seen("named", (1, "# elsewhere\n"), run(tool, "--capcheck", "elsewhere/capcheck"))
        os.remove("beside/capcheck")
        self.seen("on PATH", (1, "# path\n"), run(tool))
        words = "capcheck-annotate: there is no capcheck beside this program or on PATH; --capcheck PATH says where it is\n"
        self.seen("nowhere", (3, words), run(sys.executable, tool, path="/absent"))

    def test_a_closed_pipe(self):
        reading, writing = os.pipe()
        os.close(reading)
        self.seen("a closed pipe", (3, ""), harness.run(["annotate", f"{EXAMPLES}/tool.trace"], stdout=writing)[::2])
        os.close(writing)

    def test_manual(self):
        """The manual page names each option and each field of the document, and its examples are what is printed."""
        page = harness.text_of(f"{harness.ROOT}/docs/capcheck-annotate.1")
        refused = json.loads(self.annotate("json", harness.save("bad", "x\n")))
        document = json.loads(self.annotate("json", f"{EXAMPLES}/server.trace"))
        finding = document["findings"][0]
        fields = {*document, *finding, *finding["explanation"][0], *refused["refused"]}
        self.seen("fields", fields, set(re.findall(r"^\.It Li ([a-z]+)$", page, re.M)))
        options = set(re.findall(r"--([a-z]+)", harness.run(["annotate", "--help"]).out))
        self.seen("options", options - {"help"}, set(re.findall(r"^\.It Fl Fl ([a-z]+)", page, re.M)) - {"help"})
        examples = re.findall(r"^\$ capcheck-annotate (.*)\n((?:[^$.].*\n)+)", page, re.M)
        self.assertTrue(examples)
        for command, wanted in examples:
            words = command.replace("server.trace", "examples/server.trace").split()
            self.seen(command, wanted, harness.run(["annotate", *words], cwd=harness.ROOT).out.replace("examples/", ""))

    def test_height(self):
        """The page's script and its style say the same height of a row."""
        page = self.annotate("html", f"{EXAMPLES}/tool.trace")
        self.seen("the height of a row", re.findall(r"--row: (\d+)px", page), re.findall(r"const ROW = (\d+);", page))
