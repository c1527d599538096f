"""Tries the page of contrib/annotate.py in Chromium, without a window. Where there is no Chromium it is left out, which is said.

Clicks and keys select lines, filters hide lines and are cleared, the address has both, hostile bytes stay text, nothing is
fetched, and long traces open soon. With PICTURES in the environment, pictures of the page are written to that folder.
"""

import base64
import json
import os
import shutil
import time

import harness

CHROMIUM = ("chromium", "chromium-browser", "chrome", "google-chrome")  # its names
SOON = 60  # seconds: far more than a page of 800,000 lines takes, also on a machine with other work


class Browser:
    """Chromium at the end of two pipes, by its DevTools protocol: JSON texts, each with a byte 0 at its end."""

    def __init__(self, path):
        commands, self.commands = os.pipe()
        replies, answers = os.pipe()
        self.replies = os.fdopen(replies, "rb")
        words = [path, "--headless=new", "--disable-gpu", "--remote-debugging-pipe", "--window-size=1200,800"]
        words += [f"--user-data-dir={os.path.abspath('profile')}", *["--no-sandbox"] * (os.geteuid() == 0), "about:blank"]
        # bash makes the pipes its descriptors 3 and 4, where Chromium looks for them.
        shell = ["bash", "-c", f'exec "$@" 3<&{commands} 4>&{answers}', "bash", *words]
        self.process = harness.started(shell, pass_fds=(commands, answers), **{name: harness.DEVNULL for name in ("stdin", "stdout", "stderr")})
        os.close(commands)
        os.close(answers)
        self.last, self.session, self.events, self.rest = 0, None, [], b""
        page = next(each for each in self.call("Target.getTargets")["targetInfos"] if each["type"] == "page")
        self.session = self.call("Target.attachToTarget", targetId=page["targetId"], flatten=True)["sessionId"]
        for domain in ("Page", "Runtime", "Log", "Network"):
            self.call(f"{domain}.enable")

    def message(self):
        while b"\0" not in self.rest:
            piece = self.replies.read1(1 << 16)
            if not piece:
                raise harness.Lost("Chromium has ended")
            self.rest += piece
        message, _, self.rest = self.rest.partition(b"\0")
        return json.loads(message)

    def call(self, method, **parameters):
        self.last += 1
        command = {"id": self.last, "method": method, "params": parameters}
        os.write(self.commands, json.dumps({**command, **({"sessionId": self.session} if self.session else {})}).encode() + b"\0")
        while (reply := self.message()).get("id") != self.last:
            self.events.append(reply)
        if "error" in reply:
            raise harness.Lost(f"{method}: {reply['error']}")
        return reply["result"]

    def ask(self, text):
        """The value of an expression of the page's script."""
        reply = self.call("Runtime.evaluate", expression=text, returnByValue=True, awaitPromise=True)
        return reply["result"].get("value", reply.get("exceptionDetails"))

    def settle(self):
        """Waits until what was done is on the screen."""
        self.ask("new Promise(done => requestAnimationFrame(() => requestAnimationFrame(() => setTimeout(done))))")

    def open(self, address):
        """Opens a page, and answers how many seconds that took."""
        self.call("Page.navigate", url="about:blank")
        self.settle()
        self.events.clear()
        start = time.monotonic()
        self.call("Page.navigate", url=address)
        while not any(event.get("method") == "Page.loadEventFired" for event in self.events):
            self.events.append(self.message())
        self.settle()
        return time.monotonic() - start

    def press(self, *keys, modifiers=0):
        for key in keys:
            text = {"Enter": "\r"}.get(key, key if len(key) == 1 else "")
            self.call("Input.dispatchKeyEvent", type="keyDown", key=key, text=text, modifiers=modifiers)
            self.call("Input.dispatchKeyEvent", type="keyUp", key=key)
        self.settle()

    def scroll(self, pane, place):
        self.ask(f"document.querySelector('#{pane}').scrollTop = {place}")
        self.settle()

    def go_back(self):
        self.ask("history.back()")
        self.settle()
        time.sleep(0.3)

    def click(self, text, pane="findings"):
        """Clicks on the link with a text, where it is on the screen."""
        box = self.ask(f"""(() => {{ const link = [...document.querySelectorAll("#{pane} a")].find(each =>
            each.textContent === {json.dumps(text)}); const box = link && link.getBoundingClientRect();
            return box && [box.x + box.width / 2, box.y + box.height / 2]; }})()""")
        if not box:
            raise harness.Lost(f"there is no link {text} in {pane}")
        for kind in ("mousePressed", "mouseReleased"):
            self.call("Input.dispatchMouseEvent", type=kind, x=box[0], y=box[1], button="left", clickCount=1)
        self.settle()

    def choose(self, field, value):
        self.ask(f"""(() => {{ const field = document.querySelector("form").elements[{json.dumps(field)}];
            field.value = {json.dumps(value)}; field.dispatchEvent(new Event("input", {{ bubbles: true }})); }})()""")
        self.settle()

    def picture(self, name):
        if folder := os.environ.get("PICTURES"):
            harness.save(os.path.join(folder, f"{name}.png"), base64.b64decode(self.call("Page.captureScreenshot")["data"]))

    def faults(self):
        """What the page's script threw or the browser wrote to its log, and what was fetched but for the page."""
        bad = [event for event in self.events if event["method"] in ("Runtime.exceptionThrown", "Log.entryAdded")]
        fetched = [event["params"]["request"]["url"] for event in self.events if event["method"] == "Network.requestWillBeSent"]
        return bad + fetched[1:]

    def end(self):
        self.call("Browser.close")
        self.process.wait(30)


def page_of(name, trace):
    """The address of the page of a trace."""
    page = harness.run(["annotate", "--format", "html", harness.save(name, trace)], encoding="utf-8")
    return f"file://{os.path.abspath(harness.save(name + '.html', page.out.encode('utf-8', 'surrogateescape')))}"


# What the tests ask of a page.
ROWS = """[...document.querySelectorAll("#trace .row")].map(row => row.textContent)"""
NUMBERS = """[...document.querySelectorAll("#trace .number")].map(each => Number(each.textContent))"""
CURRENT = """[...document.querySelectorAll("#trace .current .number")].map(each => Number(each.textContent))"""
VALUES = """["process", "descriptor", "show", "text"].map(name => document.querySelector("form").elements[name].value)"""
COUNT = """document.querySelector("output").textContent"""
ADDRESS = "location.hash"
# Whether the selected line and the row under it are in the pane as a whole, and nothing covers the line.
CLEAR = """(() => { const box = document.querySelector("#trace .current").getBoundingClientRect();
    const pane = document.querySelector("#trace").getBoundingClientRect();
    const header = document.querySelector("header").getBoundingClientRect();
    const on_top = document.elementFromPoint(pane.x + 30, box.y + box.height / 2).closest(".current");
    return box.top >= pane.top && box.top >= header.bottom && box.bottom + box.height <= pane.bottom && on_top !== null; })()"""

WORKED = b"""# a comment
100 @start(0,3)
100 cap_rights_limit(0,CAP_READ) RET 0
100 fork() RET 101
101 write(0) RET 5
101 cap_enter() RET 0
101 open("A",O_RDONLY) RET -1 errno 94
101 openat(3,"b",O_RDONLY) RET -1 errno 93
101 read(7) RET 1
"""
ALL, NO_FILTERS = list(range(1, 10)), ["", "", "", ""]
SHOWN = {"findings": [5, 9], "refused": [7, 8], "93": [8], "94": [7], "": ALL}  # the lines that are left, by what is chosen
FILTERED = (
    ("process", "100", [2, 3, 4]), ("process", "", ALL), ("descriptor", "3", [2, 8]), ("descriptor", "7", [9]), ("descriptor", "", ALL),
    ("text", "cap_", [3, 5, 6]), ("text", 'OPEN("a"', [7]), ("text", "no such text", []),
)  # fmt: skip
UNDER = {  # the rows under a line
    5: [
        "write missing 0 CAP_WRITE", "descriptor 0: line 4  100 fork() RET 101",
        "descriptor 0: line 3  100 cap_rights_limit(0,CAP_READ) RET 0", "descriptor 0: line 2  100 @start(0,3)",
    ],
    9: ["read closed 7", "descriptor 7: line 4  100 fork() RET 101", "descriptor 7: line 2  100 @start(0,3)"],
}  # fmt: skip
# Steps on the page of this trace: what is done there; or what is seen by these questions, each with its answer.
KEYS = (
    ("press", "/"), ("sees", "/ goes to the field", {"document.activeElement.name": "text"}),
    ("press", *"np/n"), ("sees", "keys in the field are text", {VALUES: ["", "", "", "np/n"]}),
    ("choose", "text", "read(7"), ("sees", "a search", {NUMBERS: [9], ADDRESS: "#text=read%287&line=5"}),
    ("press", "Enter", "n"), ("sees", "n goes on in what is left", {CURRENT: [9]}),
    ("press", "Escape"), ("sees", "Escape lifts the filters", {VALUES: NO_FILTERS, CURRENT: [9], COUNT: "9 of 9 lines", ADDRESS: "#line=9"}),
    ("press", "/", "x", "Escape", "p"), ("sees", "Escape leaves the field, and the filter stays", {VALUES: ["", "", "", "x"]}),
)  # fmt: skip
ADDRESSES = (
    ("load", "#process=101&show=findings&line=9"), ("sees", "opened", {VALUES: ["101", "", "findings", ""], NUMBERS: [5, 9], CURRENT: [9]}),
    ("click", "5 101 write missing 0 CAP_WRITE"), ("click", "descriptor 0: line 3  100 cap_rights_limit(0,CAP_READ) RET 0", "trace"),
    ("sees", "what hides the target is lifted", {VALUES: NO_FILTERS, CURRENT: [3]}),
    ("go_back",), ("sees", "back", {VALUES: ["101", "", "findings", ""], CURRENT: [5]}),
    ("load", "#process=100&line=9"), ("sees", "a line that is hidden", {VALUES: NO_FILTERS, CURRENT: [9], ADDRESS: "#line=9"}),
    ("load", "#process=7&descriptor=x&show=all&line=10&other=1"), ("sees", "nonsense", {VALUES: NO_FILTERS, CURRENT: []}),
)  # fmt: skip
MARKED = "[...document.querySelectorAll('.refused .number')].map(each => each.textContent)"
ELEMENTS = "document.querySelectorAll('*').length < 1000"  # few, however long the trace is
IN_LIST, LIST_AT = "document.querySelector('#findings .current')?.textContent", "document.querySelector('#findings').scrollTop"
ON_TOP = """(() => { const box = document.querySelector("#trace").getBoundingClientRect();
    const row = document.elementsFromPoint(box.x + 20, box.y + 10).find(each => each.matches(".row"));
    return Number(row.firstChild.textContent); })()"""
HOSTILE = "100 foo(</script><script>window.bad=1</script><img src=x onerror=window.bad=1><!--&lt;) RET 0"  # would do something as HTML


def long_trace(lines):
    """So many lines, with a finding in every hundredth, and lines of two processes."""
    yield b"100 @start(0)\n100 cap_rights_limit(0,CAP_READ) RET 0\n100 fork() RET 101\n"
    for number in range(4, lines + 1):
        process = 100 + number % 2
        yield b"%d write(0) RET 1\n" % process if number % 100 == 0 else b"%d read(0) RET %d\n" % (process, number)


class InChromium(harness.Test):
    """The page in a browser."""

    is_long = True

    def setUp(self):
        path = next(filter(None, map(shutil.which, CHROMIUM)), None)
        if not path:
            harness.left_out.append("the page of annotate: there is no Chromium on PATH")
            self.skipTest("there is no Chromium")
        self.browser, self.page = Browser(path), page_of("worked", WORKED)
        self.addCleanup(self.browser.end)

    def seen(self, what, wanted, got):
        self.same(what, wanted, got, "comparisons with the page in Chromium")

    def sees(self, what, wanted):
        """Compares what the page answers, by question."""
        for asked, answer in wanted.items():
            self.seen(f"{what}, {asked}", answer, self.browser.ask(asked))

    def load(self, address):
        self.browser.open(self.page + address)

    def follow(self, steps):
        for name, *words in steps:
            getattr(self if name in ("sees", "load") else self.browser, name)(*words)

    def test_rows_and_filters(self):
        self.load("")
        lines = [(f"{number}{number - 1 or ''}{line}", *UNDER.get(number, [])) for number, line in enumerate(WORKED.decode().splitlines(), 1)]
        self.sees("rows", {ROWS: [row for rows in lines for row in rows], MARKED: ["7", "8"]})
        self.browser.picture("worked")
        for value, wanted in SHOWN.items():
            self.browser.choose("show", value)
            self.sees(f"show {value}", {NUMBERS: wanted, "'#' + location.hash.slice(1)": f"#show={value}" if value else "#"})
        for field, value, wanted in FILTERED:
            self.browser.choose(field, value)
            self.sees(f"{field} {value}", {NUMBERS: wanted, COUNT: f"{len(wanted)} of 9 lines"})
        self.seen("faults", [], self.browser.faults())

    def test_keys(self):
        """n, p, / and Escape."""
        self.load("")
        for key, wanted in zip("nnnppnp", (5, 9, 9, 5, 5, 9, 5)):
            self.browser.press(key)
            self.sees(f"{key}, of n and p", {CURRENT: [wanted], ADDRESS: f"#line={wanted}"})
        self.follow(KEYS)
        self.browser.press("Escape", modifiers=2)
        self.sees("Escape with Control is left alone", {VALUES: ["", "", "", "x"]})
        self.seen("faults", [], self.browser.faults())

    def test_addresses(self):
        """The address opens the page as it was, and the browser's own way back works."""
        self.follow(ADDRESSES)
        self.seen("faults", [], self.browser.faults())

    def test_hostile_bytes(self):
        trace = f"100 @start()\n{HOSTILE}\n#\xff\xe2\x80\xae\n100 read(1) RET 1\n"
        self.browser.open(page_of("<b>&lt;'\"@DATA@", trace.encode("latin1")))
        self.sees("what was made", {f"{ROWS}[1]": f"22{HOSTILE}", "window.bad": None, "document.querySelectorAll('img, b').length": 0})
        self.sees("title", {"document.title": "<b>&lt;'\"@DATA@"})
        self.seen("faults", [], self.browser.faults())

    def test_what_stays(self):
        """The line on top stays there when filters change, and the list doesn't move under a click."""
        self.browser.open(page_of("long", b"".join(long_trace(5000))))
        self.browser.scroll("trace", 40000)
        first = self.browser.ask(ON_TOP)
        self.seen("in the middle", True, 1000 < first < 4000)
        for value in ("read", "read(", "read", ""):
            self.browser.choose("text", value)
            self.seen("the line on top", True, first <= self.browser.ask(ON_TOP) <= first + 1)
        self.browser.scroll("findings", 410)
        self.browser.click("3000 100 write missing 0 CAP_WRITE")
        self.sees("the list stays", {LIST_AT: 410})
        self.browser.press(*"n" * 20)
        self.sees("the list follows the keys", {IN_LIST: "5000 100 write missing 0 CAP_WRITE"})

    def test_refused(self):
        """A trace with a line that can't be read."""
        self.browser.open(page_of("refused", b"100 @start()\n# x\n100 read(<x>) RET 1\n100 fork() RET 0\n"))
        self.sees("rows", {ROWS: ["11100 @start()", "2# x", "3100 read(<x>) RET 1", "refused E4"]})
        self.browser.click("3 refused E4")
        self.sees("a click", {CURRENT: [3]})
        self.browser.picture("refused")

    def test_large(self):
        """A trace of many lines opens soon, and each line can be reached."""
        for lines in (200_000, 800_000):
            took = self.browser.open(page_of(f"{lines}", b"".join(long_trace(lines))))
            self.assertLess(took, SOON, f"seconds that a page of {lines} lines takes")
            self.sees("opened", {COUNT: f"{lines} of {lines} lines", ELEMENTS: True})
            self.browser.scroll("trace", "1e9")
            self.sees("the last line at the bottom", {f"{NUMBERS}.pop()": lines})
            self.browser.picture(f"{lines}")
            self.browser.press("n", "n")
            self.sees("n", {CURRENT: [200], CLEAR: True})
            self.filters(lines // 100 * 100)
            self.browser.picture(f"{lines}-filtered")
            self.sees("few elements still", {ELEMENTS: True})
            self.seen("faults", [], self.browser.faults())

    def filters(self, last):
        """Clicks on findings that filters hide: the last, and the one before."""
        self.follow((("choose", "process", "101"), ("choose", "text", "read"), ("scroll", "findings", "1e9")))
        self.browser.click(f"{last} 100 write missing 0 CAP_WRITE")
        self.sees("both filters hid it", {CURRENT: [last], CLEAR: True, VALUES: NO_FILTERS})
        self.follow((("choose", "process", "100"), ("choose", "text", "READ(0) RET"), ("press", "p")))
        self.browser.click(f"{last - 100} 100 write missing 0 CAP_WRITE")
        self.sees("one filter hid it", {VALUES: ["100", "", "", ""], CURRENT: [last - 100], CLEAR: True})
