#!/usr/bin/env python3
"""Tries contrib/page_of_history.py: the page of a job is well formed, asks nothing of elsewhere, and has each event.

    page.py [--shots FOLDER] PROGRAM..      the first program runs jobs, and is asked for prices

Where a Chromium is installed, it opens the page of a small job and of a great one, in light and in dark, narrow and
wide, without a network: keys move the slider, the focus goes by tab and is seen, hovering tells of attempts and waves,
and nothing is wider than the page. --shots keeps what it shows. The last line is 'N passed, M failed'.
"""
import argparse
import base64
import fcntl
import json
import os
import random
import re
import select
import shutil
import signal
import subprocess
import sys
import tempfile
import time
from html.parser import HTMLParser
from pathlib import Path

sys.dont_write_bytecode = True
import make_texts
from contrib import CONTRIB, EXAMPLES, TALES, Counted, as_history, said, script
from made_course import made

from course import course_of
from page_of_history import prices_by
from texts import Fault

SAMPLE = CONTRIB / "samples/job.txt"
VOID = {"meta", "input", "br", "hr", "img", "link"}
ELSEWHERE = "https?:|//[a-z]|\\bsrc\\s*=|@import|url\\(|fetch\\(|XMLHttp|WebSocket|EventSource|sendBeacon|\\bimport\\("
BROWSERS = ("chromium", "chromium-browser", "google-chrome", "chrome")
MOST_SECONDS = 120  # of the browser, which only a hang takes


class Page(HTMLParser):
    """A page's elements, and what is wrong with them."""

    def __init__(self, text):
        super().__init__()
        self.open, self.wrong, self.ids, self.refers, self.data, self.words = [], [], [], [], "", {}
        self.feed(text)
        self.close()
        self.wrong += [f"<{tag}> stays open" for tag in self.open]
        self.wrong += [f"{it} stands {self.ids.count(it)} times" for it in {*self.ids} if self.ids.count(it) > 1]
        self.wrong += [f"{it} is nowhere" for it in self.refers if it not in self.ids]

    def handle_starttag(self, tag, attrs):
        named = dict(attrs)
        self.ids += [named["id"]] if "id" in named else []
        for name in ("for", "aria-labelledby", "aria-describedby"):
            self.refers += (named.get(name) or "").split()
        if "href" in named:
            self.wrong += [] if named["href"].startswith("#") else [f"goes to {named['href']}"]
            self.refers.append(named["href"][1:])
        if tag not in VOID:
            self.open.append(tag)

    def handle_endtag(self, tag):
        if not self.open or self.open.pop() != tag:
            self.wrong.append(f"</{tag}> ends nothing")

    def handle_data(self, data):
        tag = self.open[-1] if self.open else ""
        self.words[tag] = self.words.get(tag, "") + data
        if tag == "script" and not self.data:
            self.data = data


def told(page_text, history):
    """What is wrong with a page of a history."""
    page = Page(page_text)
    yield from page.wrong
    yield from re.findall(ELSEWHERE, re.sub(r"(?m)^\s*//.*$", "", page_text))
    data = json.loads(page.data)
    ended = [line.startswith(("index ", "stuck ")) for line in history].index(True)
    events = [line for line in history[:ended] if not line.startswith("start ")]
    if data["events"] != events:
        yield "the events are not those of the history"
    starts = [line.split(" ")[1:] for line in history[:ended] if line.startswith("start ")]
    name = lambda row: [data["splits"][row[1]][0], data["workers"][row[2]][0]]
    found = [[str(at), *name(row)] for at, row in enumerate(data["attempts"], 1) if row[0] == 0]
    if starts != found or [it[3] for it in data["waves"]] != waves_in(history[:ended]):
        yield "the starts are not those of the history"


def waves_in(lines):
    """The attempts of each wave."""
    waves = []
    for line in lines:
        if line.startswith(("wave ", "ahead ")):
            waves.append([])
        elif line.startswith("start "):
            waves[-1].append(int(line.split(" ")[1]))
    return waves


def structure(count, room):
    """Pages of recorded jobs and of a made one, from a report and from a history."""
    for path in [SAMPLE, *sorted(EXAMPLES.glob("play_*.txt"))]:
        report = path.with_suffix(".out")
        page, wrong, status = script("page_of_history.py", path, report)
        if path != SAMPLE and path.with_suffix(".status").read_text().strip() == "2":
            count.expect(f"no page of {path.stem}", (page, wrong.count("\n"), status), (b"", 1, 1))
            continue
        job, history = as_history(path.read_bytes(), report.read_text())
        (room / "job").write_bytes(job)
        (room / "history").write_text(history)
        of_job = script("page_of_history.py", room / "job", room / "history")
        count.expect(f"the pages of {path.stem}", (wrong, status, *of_job[1:]), ("", 0, "", 0))
        for text in (page, of_job[0]):
            count.none(f"the page of {path.stem} is whole", told(text.decode(), history.splitlines()))
    hostile = room / "a<b>&'.txt"
    shutil.copyfile(SAMPLE, hostile)
    page = Page(script("page_of_history.py", hostile, SAMPLE.with_suffix(".out"))[0].decode())
    titles = (page.words["title"], json.loads(page.data)["title"])
    count.expect("a file's name is text", (page.wrong, *titles), ([], f"{hostile.name}: a job by mrjob", hostile.name))
    for name, words in {"nothing": [SAMPLE, "/dev/null"], "no file": [SAMPLE, room / "none"],
                        "another's report": [SAMPLE, EXAMPLES / "play_first.out"],
                        "no planner": ["--planner", "/none", SAMPLE, SAMPLE.with_suffix(".out")]}.items():
        page, wrong, status = script("page_of_history.py", *words)
        count.expect(f"no page of {name}", (page, wrong.count("\n"), status), (b"", 1, 1))


def planned(count, program, room):
    """A run's history makes a page; each wave of it is certified by the prices that a planner gives."""
    job, history, names = room / "own.txt", room / "own.out", room / "names"
    job.write_bytes(script("job_of_files.py", TALES, "--block", "100", "--workers", "6", "--names", names)[0])
    history.write_bytes(said([program, "run", "--history"], job.read_bytes())[0])
    for text, answer in ((job, history), (SAMPLE, SAMPLE.with_suffix(".out"))):
        page, wrong, status = script("page_of_history.py", "--planner", program, text, answer)
        count.expect(f"the page of {text.name} by a planner", (wrong, status), ("", 0))
        waves = [it for it in json.loads(Page(page.decode()).data)["waves"] if it[6] == "wave"]
        certified = [f"certified {count} {cost}" for _, count, cost, *_ in waves]
        count.expect(f"the waves of {text.name} are certified", [it[4] for it in waves], certified)
    count.none("the page of a run is whole", told(script("page_of_history.py", job, history)[0].decode(),
                                                  history.read_text().splitlines()))


def followed(count, program):
    """The reports of made scripts and the histories of made jobs are followed, and by the state that each wave finds a
    planner's prices certify it: so who lives, what runs and who holds what is told as the program has it."""
    for kind, words in (("script", ["play"]), ("job", ["run", "--history"])):
        wrong, waves = [], 0
        for seed in range(1, 61):
            text = make_texts.KINDS[kind](random.Random(seed))
            answer, _, status = said([program, *words], text)
            try:
                course = course_of(text, answer.decode(), prices_by(program))
            except Fault as fault:
                wrong.append((seed, status, str(fault)))
                continue
            waves += len(course.waves)
            certified = [(it.prices[0], f"certified {it.count} {it.cost}") for it in course.waves if it.prices]
            wrong += [(seed, *it) for it in certified if it[0] != it[1]]
        count.none(f"what 60 made {kind}s tell is followed", wrong)
        count.expect(f"the made {kind}s have waves", waves > 60)


class Browser:
    """A Chromium without a window, spoken to over a pipe by its own protocol."""

    def __init__(self, program, room):
        self.number, self.rest, self.heard, self.until = 0, b"", [], time.monotonic() + MOST_SECONDS
        (low_here, self.into), (self.out, low_there) = os.pipe(), os.pipe()
        # (3 and 4 are the numbers that the browser reads and writes)
        here, there = (fcntl.fcntl(it, fcntl.F_DUPFD, 10) for it in (low_here, low_there))
        words = ["--headless", "--no-sandbox", "--disable-gpu", "--hide-scrollbars", "--disable-dev-shm-usage",
                 "--no-first-run", "--remote-debugging-pipe", f"--user-data-dir={room}/profile", "about:blank"]
        shell = f'exec "$@" 3<&{here} 4>&{there} {here}<&- {there}>&-'
        self.process = subprocess.Popen(
            ["bash", "-c", shell, "bash", program, *words], pass_fds=(here, there), start_new_session=True,
            stdin=subprocess.DEVNULL, stdout=subprocess.DEVNULL, stderr=subprocess.DEVNULL,
            env={**os.environ, "HOME": str(room)},
        )
        for number in (low_here, low_there, here, there):
            os.close(number)

    def end(self):
        """Ends the browser with all of its own processes."""
        for number in (self.into, self.out):
            os.close(number)
        try:
            os.killpg(self.process.pid, signal.SIGKILL)
        except ProcessLookupError:
            pass
        self.process.wait()

    def message(self):
        """The next message, or None where none comes any more."""
        while b"\0" not in self.rest:
            if not select.select([self.out], [], [], max(self.until - time.monotonic(), 0))[0]:
                return None
            some = os.read(self.out, 1 << 20)
            if not some:
                return None
            self.rest += some
        text, _, self.rest = self.rest.partition(b"\0")
        return json.loads(text)

    def ask(self, method, session=None, **params):
        """The result of a call; what else is told is kept."""
        self.number += 1
        call = {"id": self.number, "method": method, "params": params, **({"sessionId": session} if session else {})}
        os.write(self.into, json.dumps(call).encode() + b"\0")
        while True:
            told = self.message()
            if told is None:
                raise TimeoutError(method)
            if told.get("id") == self.number:
                if "error" in told:
                    raise ValueError(f"{method}: {told['error']}")
                return told["result"]
            self.heard.append(told)

    def open(self):
        target = self.ask("Target.createTarget", url="about:blank")["targetId"]
        return Tab(self, self.ask("Target.attachToTarget", targetId=target, flatten=True)["sessionId"])


KEYS = {"ArrowLeft": 37, "ArrowUp": 38, "ArrowRight": 39, "ArrowDown": 40, "End": 35, "Home": 36, "Tab": 9, "Enter": 13}


class Tab:
    """A page in the browser."""

    def __init__(self, browser, session):
        self.browser, self.session = browser, session
        for part in ("Page", "Runtime", "Network", "Log"):
            self.ask(f"{part}.enable")

    def ask(self, method, **params):
        return self.browser.ask(method, self.session, **params)

    def load(self, path, wide, high, scheme):
        self.browser.heard.clear()
        self.ask("Emulation.setEmulatedMedia", features=[{"name": "prefers-color-scheme", "value": scheme}])
        self.ask("Emulation.setDeviceMetricsOverride", width=wide, height=high, deviceScaleFactor=1, mobile=False)
        self.ask("Page.navigate", url=f"file://{path}")
        while self.value("document.readyState + location.protocol") != "completefile:":
            time.sleep(0.05)

    def value(self, words):
        return self.ask("Runtime.evaluate", expression=words, returnByValue=True)["result"].get("value")

    def key(self, name, **more):
        code = {"key": name, "code": name, "windowsVirtualKeyCode": KEYS[name], **more}
        for kind in ("keyDown" if more else "rawKeyDown", "keyUp"):
            self.ask("Input.dispatchKeyEvent", type=kind, **code)

    def point(self, x, y):
        self.ask("Input.dispatchMouseEvent", type="mouseMoved", x=x, y=y)

    def shot(self):
        """The whole page as PNG."""
        size = self.ask("Page.getLayoutMetrics")["cssContentSize"]
        clip = {"x": 0, "y": 0, "width": size["width"], "height": size["height"], "scale": 1}
        data = self.ask("Page.captureScreenshot", format="png", captureBeyondViewport=True, clip=clip)["data"]
        return base64.b64decode(data)

    def complaints(self):
        """What went wrong in the page, and what it asked of the network."""
        for told in self.browser.heard:
            method, params = told.get("method"), told.get("params", {})
            if method == "Runtime.exceptionThrown":
                yield params["exceptionDetails"].get("exception", {}).get("description", "an exception")
            elif method in ("Log.entryAdded", "Runtime.consoleAPICalled"):
                yield str(params)[:300]
            elif method == "Network.requestWillBeSent" and not params["request"]["url"].startswith("file:"):
                yield f"asks for {params['request']['url']}"


# The least contrast of words with what they stand on, over elements that have words of their own.
CONTRAST = """(() => {
  const light = text => { const [r, g, b] = text.match(/[0-9.]+/g).slice(0, 3).map(it => it / 255)
    .map(it => it <= 0.03928 ? it / 12.92 : ((it + 0.055) / 1.055) ** 2.4);
    return 0.2126 * r + 0.7152 * g + 0.0722 * b; };
  const ground = it => { for (; it; it = it.parentElement) { const c = getComputedStyle(it).backgroundColor;
    if (!/, 0\\)$|transparent/.test(c)) return c; } return "rgb(255, 255, 255)"; };
  let least = 21;
  for (const it of document.querySelectorAll("body *")) {
    const own = [...it.childNodes].some(n => n.nodeType === 3 && n.textContent.trim());
    if (!own || !it.offsetParent || it.disabled || it.closest(".dead, script")) continue;
    const [a, b] = [light(getComputedStyle(it).color), light(ground(it))].sort((p, q) => q - p);
    least = Math.min(least, (a + 0.05) / (b + 0.05));
  }
  return least; })()"""
# How many colours the time line has, at the places of a grid.
COLOURS = """(() => { const c = document.querySelector("#lines canvas"), p = c.getContext("2d"), found = new Set();
  const d = p.getImageData(0, 0, c.width, c.height).data;
  for (let at = 0; at < d.length; at += 4 * 13) found.add((d[at] << 16) + (d[at + 1] << 8) + d[at + 2]);
  return found.size; })()"""
FOCUS = """(() => { const it = document.activeElement, s = getComputedStyle(it);
  const isSeen = it.matches(":focus-visible") && s.outlineStyle !== "none";
  return [it.id || it.textContent, isSeen ? parseFloat(s.outlineWidth) : 0]; })()"""
SLIDER = "+document.getElementById('slider').value"


def by_keys(count, tab, name, last):
    """The order of tabs, each seen; the slider by keys, from anywhere and when it has the focus."""
    found = []
    for _ in range(11):
        tab.key("Tab")
        found.append(tab.value(FOCUS))
    order = ["To the slider", "waveBack", "back", "slider", "on", "waveOn", "play", "zoomIn", "lines"]
    count.expect(f"{name}: the order of tabs", [it[0] for it in found][: len(order)], order)
    count.none(f"{name}: what has the focus is seen", [it for it in found if it[1] < 2])
    moves = []
    for key in ("Home", "ArrowRight", "ArrowRight", "ArrowLeft", "End", "ArrowLeft"):
        if key == "Home":
            tab.value("document.getElementById('slider').focus()")
        tab.key(key)
        moves.append(tab.value(SLIDER))
    count.expect(f"{name}: keys move the slider", moves, [0, 1, 2, 1, last, last - 1])
    tab.value("document.activeElement.blur()")
    tab.key("ArrowLeft")
    count.expect(f"{name}: keys move it from anywhere", tab.value(SLIDER), last - 2)
    tab.value("document.getElementById('lines').focus()")
    before = tab.value("document.getElementById('worker').textContent")
    tab.key("ArrowDown")
    count.expect(f"{name}: keys choose a worker", tab.value("document.getElementById('worker').textContent") != before)
    tab.value("show(0)")
    tab.value("document.getElementById('waveOn').focus()")
    tab.key("Enter", text="\r")
    words = tab.value("document.getElementById('said').textContent")
    count.expect(f"{name}: Enter goes to the first wave", words.startswith("Wave 1 starts "), True)


def by_pointer(count, tab, name):
    """Hovering over the first attempt that is drawn, and over a wave in its table, tells of them."""
    tab.value("show(1); document.getElementById('lines').scrollIntoView()")
    x, y = tab.value("""(() => {
      const a = document.querySelector("#lines canvas").getBoundingClientRect(), it = attempts[0];
      return [a.left + pixels.x(it.start) + 6, a.top + pixels.top + (it.worker + 0.5) * pixels.row]; })()""")
    tab.point(x, y)
    words = tab.value("document.getElementById('tip').hidden ? '' : document.getElementById('tip').textContent")
    count.expect(f"{name}: hovering tells of an attempt", bool(re.match(r"attempt \d+, map of ", words)), True)
    tab.value("document.querySelector('#waves tr:nth-child(2)').scrollIntoView({block: 'center'})")
    x, y = tab.value("""(() => { const a = document.querySelector("#waves tr:nth-child(2)").getBoundingClientRect();
      return [a.left + 5, a.top + a.height / 2]; })()""")
    tab.point(x, y)
    words = tab.value("document.getElementById('tip').textContent")
    count.expect(f"{name}: hovering tells of a wave", words.startswith("wave 1, event "), True)
    tab.point(1, 1)


def shown(count, browser, pages, shots):
    """The pages as a browser shows them."""
    for name, (path, last) in pages.items():
        tab = browser.open()
        seen = {}
        for scheme in ("light", "dark"):
            for wide in (1280, 390):
                tab.load(path, wide, 1600, scheme)
                of = f"{name}, {scheme}, {wide} wide"
                tab.value(f"show({last // 3})")
                count.expect(f"{of}: no wider than the page", tab.value("document.documentElement.scrollWidth") <= wide)
                least = tab.value(CONTRAST)
                count.expect(f"{of}: words stand out", least >= 4.5 or least, True)
                count.expect(f"{of}: the time line is drawn", tab.value(COLOURS) >= 4)
                seen[scheme, wide] = tab.shot()
                if shots:
                    (Path(shots) / f"{name}_{scheme}_{wide}.png").write_bytes(seen[scheme, wide])
                if wide == 1280 and scheme == "light":
                    by_keys(count, tab, of, last)
                    by_pointer(count, tab, of)
                count.none(f"{of}: nothing goes wrong", tab.complaints())
        count.expect(f"{name}: four pictures", len({*seen.values()}), 4)


def browsed(count, room, shots):
    """Opens a small and a great page, where there is a browser."""
    program = next(filter(None, map(shutil.which, BROWSERS)), None)
    if not program:
        print("the pages were not shown: there is no Chromium")
        return
    great, report = made(1, racks=32, workers=256, slots=16, splits=1024, parts=64, most=6000)
    pages = {}
    for name, text, answer in (("small", SAMPLE.read_text(), SAMPLE.with_suffix(".out").read_text()),
                               ("great", great, report)):
        given, said_of, page = room / f"{name}.txt", room / f"{name}.out", room / f"{name}.html"
        given.write_text(text)
        said_of.write_text(answer)
        page.write_bytes(script("page_of_history.py", given, said_of)[0])
        pages[name] = (page, len(json.loads(Page(page.read_text()).data)["events"]))
    browser = Browser(program, room)
    try:
        browser.ask("Browser.getVersion")
    except (TimeoutError, OSError):
        browser.end()
        print("the pages were not shown: Chromium did not start")
        return
    try:
        shown(count, browser, pages, shots)
    except (TimeoutError, OSError, ValueError) as why:
        count.expect(f"the browser answers ({why!r})", False)
    finally:
        browser.end()


def main():
    parser = argparse.ArgumentParser(description=__doc__, formatter_class=argparse.RawDescriptionHelpFormatter)
    parser.add_argument("--shots", metavar="FOLDER")
    parser.add_argument("programs", nargs="*")
    given = parser.parse_args()
    count = Counted()
    with tempfile.TemporaryDirectory() as room:
        structure(count, Path(room))
        for program in map(os.path.abspath, given.programs[:1]):
            planned(count, program, Path(room))
            followed(count, program)
        browsed(count, Path(room), given.shots)
    print(f"{count.passed} passed, {count.failed} failed")
    return 1 if count.failed or not count.passed else 0


if __name__ == "__main__":
    sys.exit(main())
