"""The browser test: pages that `staubharfe page` wrote, loaded, stepped through, read back and held to `run --json`."""

import json
import pathlib
import random
import subprocess
import sys
import tempfile
import time

import expected
import looks
from webdriver import Browser

READ = (pathlib.Path(__file__).parent / "read.js").read_text(encoding="utf-8")
STORY = "incident5"
MISTAKE = "WrongDigestRecorded"
REFUSED = "edge_k"
LONG_STEPS = 5000
SLOWEST = 1.0


class Difference(Exception):
    """Something on a page is not what it has to be."""


# Two values must be the same.
def same(what, found, wanted):
    if found != wanted:
        raise Difference(f"{what}: the page has\n  {found}\nand not\n  {wanted}")


class Tester:
    """A built staubharfe, a browser, and a folder for the pages."""

    # What the test works with.
    def __init__(self, program, browser, folder):
        self.program, self.browser, self.folder = program, browser, folder
        self.pages = {}

    # What the program prints; it must end with the given status.
    def prints(self, status, *words):
        ended = subprocess.run([self.program, *words], capture_output=True, check=False)
        if ended.returncode != status:
            raise Difference(f"{words} ended with {ended.returncode}: {ended.stderr.decode()}")
        return ended.stdout.decode()

    # The address of a schedule's page, which is written the first time that it is asked for.
    def page(self, status, *words):
        if words not in self.pages:
            page = self.folder / f"page{len(self.pages)}.html"
            page.write_text(self.prints(status, "page", *words), encoding="utf-8")
            self.pages[words] = page.as_uri()
        return self.pages[words]

    # Opens a schedule's page afresh; hands back its address.
    def open(self, schedule, *words, status=0, link=""):
        address = self.page(status, *words, str(schedule))
        self.browser.open("about:blank")
        self.browser.open(address + link)
        return address

    # What the page shows.
    def read(self):
        return self.browser.run(READ)

    # The page must stand at a step and show it of each run as the run's JSON has it.
    def shows(self, runs, at):
        found = self.read()
        same("the step", found["at"], at)
        same("how many runs", len(found["runs"]), len(runs))
        for run, view in zip(runs, found["runs"]):
            name = f"step {at}"
            same(f"{name}: the world", view["world"], expected.shown(run, *expected.world(run, at)))
            if at > 0:
                step = run["steps"][at - 1]
                same(f"{name}: the answer", view["step"]["answer"], f"{step['answer']} {step['name']}")
                same(f"{name}: why", view["step"]["why"], step["why"])
                same(f"{name}: the text", view["step"]["text"], f"Step {at}{step['text']}")
                same(f"{name}: the marks", view["marks"], expected.marks(step))


# A schedule's run as `run --json` prints it; its changes must lead to its end.
def run_of(tester, schedule):
    run = json.loads(tester.prints(0, "run", "--json", str(schedule)))
    same("the end of a run's JSON", expected.world(run, len(run["steps"])), expected.final(run))
    return run


# A small run by key, button, slider, field and link, on and back.
def small(tester, examples):
    schedule = examples / f"{STORY}.bin"
    run = run_of(tester, schedule)
    last = len(run["steps"])
    address = tester.open(schedule)
    press = tester.browser.press
    tester.shows([run], 0)
    for at in range(1, last + 1):
        press("ArrowRight")
        tester.shows([run], at)
    press("ArrowRight")
    tester.shows([run], last)
    for at in range(last - 1, -1, -1):
        press("ArrowLeft")
        tester.shows([run], at)
    ways = [
        (lambda: press("End"), last), (lambda: press("Home"), 0), (lambda: tester.browser.click("#on"), 1),
        (lambda: tester.browser.type("#slider", "\ue014\ue014"), 3), (lambda: tester.browser.click("#back"), 2),
        (lambda: tester.browser.press_with("Shift", "ArrowRight"), 12), (lambda: tester.browser.click("#end"), last),
        (lambda: tester.browser.click("#first"), 0), (lambda: press("n"), 6), (lambda: press("n"), 22),
        (lambda: press("p"), 6), (lambda: tester.browser.click("#list li:last-child button"), 10),
        (lambda: tester.browser.open(f"{address}#step=7"), 7),
        (lambda: tester.browser.open(f"{address}#step=999"), last),
    ]
    for go, at in ways:
        go()
        tester.shows([run], at)
    return last


# Two runs side by side: the right one as `run --json` has it, the other as the page itself carries it.
def two(tester, examples):
    schedule = examples / f"{STORY}.bin"
    tester.open(schedule, "--mistake", MISTAKE)
    script = "return [...document.querySelectorAll(\"script[type='application/json']\")].map((one) => one.textContent)"
    carried = [json.loads(text) for text in tester.browser.run(script)]
    same("the right run that the page carries", carried[0], run_of(tester, schedule))
    for at in range(0, len(carried[0]["steps"]) + 1):
        tester.shows(carried, at)
        tester.browser.press("ArrowRight")
    answers = [[step["answer"] for step in run["steps"]] for run in carried]
    differ = [at + 1 for at, (mine, other) in enumerate(zip(*answers)) if mine != other]
    if not differ:
        raise Difference(f"{MISTAKE} does not change an answer of {STORY}")
    tester.browser.press("Home", "d")
    same("the first difference is no later than the first answer that differs", tester.read()["at"] <= differ[0], True)
    marked = tester.browser.run("return document.querySelectorAll('.differs').length")
    same("something is marked as differing", marked > 0, True)


# A schedule of about so many steps, in which much is done: fields at random, within small bounds.
def long_schedule(steps):
    draw = random.Random(20)
    byte = lambda most: draw.randrange(most)
    records = [bytes([0x01, 7, 0b0000100])]
    for number in range(40):
        records.append(bytes([0x02, byte(9), 0, 0, 0, number, draw.choice([0x7F, 0x7F, 0x7D])]) + draw.randbytes(24))
    kinds = {
        3: lambda: [byte(7), byte(40)], 4: lambda: [byte(7), byte(20)], 5: lambda: [byte(7), byte(12)],
        6: lambda: [byte(7), byte(12)], 7: lambda: [byte(7)], 8: lambda: [2, byte(7), byte(7), 0, byte(9), byte(40)],
    }
    weights = [3, 40, 25, 25, 12, 2]
    while len(records) <= steps:
        kind = draw.choices(list(kinds), weights)[0]
        records.append(bytes([kind, *kinds[kind]()]))
    return b"".join(records)


# A long run: far jumps, on and back, and some steps by key; no step may be slow.
def long(tester):
    schedule = tester.folder / "long.bin"
    schedule.write_bytes(long_schedule(LONG_STEPS))
    run = run_of(tester, schedule)
    last = len(run["steps"])
    same("the steps of the long run", last, LONG_STEPS)
    began = time.monotonic()
    tester.open(schedule)
    jumps = [0, 1, last, 41, 2500, 1234, last - 1, 3333, 777, 0, 4242]
    for at in jumps:
        took = tester.browser.run("const from = performance.now(); show(arguments[0]);"
                                  "document.body.offsetHeight; return performance.now() - from", at) / 1000
        same(f"step {at} is shown in {took:.2f} seconds, within {SLOWEST}", took <= SLOWEST, True)
        tester.shows([run], at)
    for at in range(4243, 4263):
        tester.browser.press("ArrowRight")
        tester.shows([run], at)
    done = sum(step["answer"] <= 1 for step in run["steps"])
    return last, done, time.monotonic() - began


# A refused schedule has a page that says so.
def refused(tester, examples):
    tester.open(examples / f"{REFUSED}.bin", status=1)
    said = tester.browser.run("return document.querySelector('.refusal').textContent")
    same("the refusal is told", "22 BAD_KIND" in said and "byte 3" in said, True)


# No page fetches anything, and no script of it fails.
def silent(tester):
    fetched = tester.browser.run("return performance.getEntriesByType('resource').map((entry) => entry.name)")
    same("what the page fetched", fetched, [])
    same("what the browser complains of", tester.browser.console(), [])


# Every test, one line each.
def main(program, browser, driver, examples):
    examples = pathlib.Path(examples)
    with tempfile.TemporaryDirectory() as folder, Browser(browser, driver) as session:
        tester = Tester(program, session, pathlib.Path(folder))
        print(f"browser test: {small(tester, examples)} steps of {STORY}, on and back: as run --json", flush=True)
        silent(tester)
        two(tester, examples)
        silent(tester)
        print(f"browser test: {STORY} beside {MISTAKE}: as run --json", flush=True)
        steps, done, took = long(tester)
        silent(tester)
        print(f"browser test: {steps} steps, {done} done or dropped, in {took:.1f} seconds: as run --json", flush=True)
        refused(tester, examples)
        silent(tester)
        for view in looks.views(tester, examples):
            looks.check(tester, view)
        print("browser test: nothing cut off, every text readable, dark and light, 1280 and 1920 wide", flush=True)


if __name__ == "__main__":
    try:
        main(*sys.argv[1:])
    except (Difference, RuntimeError, OSError) as why:
        sys.exit(f"browser test: {why}")
