#!/usr/bin/env python3
"""Measures how long Chromium takes to open pages: until the first text is on its picture, and until all is read and laid out.

Usage: bench/opening.py [--rounds N] [--lines N] [PAGE ..]

    --rounds N   opens each page so often, by turns, and shows the least (default 5)
    --lines N    the lines of the pages that are made where none is named (default 100,000)

Without PAGE it makes a log of plain lines and one with colours, and of each the pages of ansi2html that README names: by
itself, by --classes, by --lines and by --shown. Each time is of a browser that has just begun, in milliseconds since it was told the
address: the first picture with something of the page in it (first-contentful-paint, of the Paint Timing API), the load event,
the layout of all that shows (`scrollHeight` is asked for then), and the next frame. `thread` is what the page's main thread has worked
by then, of a processor: beside other work the times differ by a sixth from run to run, and that by a twentieth.
"""

import argparse
import json
import os
import random
import subprocess
import sys
import tempfile

HERE = os.path.dirname(os.path.abspath(__file__))
sys.dont_write_bytecode = True
sys.path.insert(0, os.path.join(HERE, "../tests"))

from lib import chromium

PROGRAM = os.path.join(HERE, "../crates/ansi2html/out/ansi2html")
WORDS = "compiling linking src/parser/table.rt warning: unused ok test result passed 0.12s request worker GET /index.html 200".split()
COLORS = ["31", "32", "1", "90"]
# what notes the times, before anything of the page is read
SCRIPT = """
window.opened = new Promise(done => addEventListener("load", () => {
    const load = performance.now(), height = document.documentElement.scrollHeight, layout = performance.now();
    requestAnimationFrame(() => setTimeout(() => {
        const [first] = performance.getEntriesByName("first-contentful-paint");
        done([first ? first.startTime : NaN, load, layout, performance.now()]);
    }, 0));
}));
"""


class Browser:
    """Chromium without a window, which takes commands from a pipe (the DevTools protocol)."""

    def __init__(self, path, folder):
        theirs, self.to = os.pipe()
        self.answers, back = os.pipe()

        def begin():
            # (it reads from 3 and writes to 4)
            high = os.dup2(theirs, 60), os.dup2(back, 61)
            os.dup2(high[0], 3), os.dup2(high[1], 4)

        words = [path, "--headless", "--no-sandbox", "--disable-gpu", "--remote-debugging-pipe", "--user-data-dir=" + folder]
        self.ran = subprocess.Popen(words, preexec_fn=begin, close_fds=False, stdout=subprocess.DEVNULL, stderr=subprocess.DEVNULL)
        os.close(theirs), os.close(back)
        self.count, self.left = 0, b""

    def answer(self):
        while b"\0" not in self.left:
            self.left += os.read(self.answers, 1 << 20)
        one, _, self.left = self.left.partition(b"\0")
        return json.loads(one)

    def call(self, method, session=None, **words):
        self.count += 1
        asked = {"id": self.count, "method": method, "params": words, **({"sessionId": session} if session else {})}
        os.write(self.to, json.dumps(asked).encode() + b"\0")
        while True:
            found = self.answer()
            if found.get("id") == self.count:
                return found.get("result", {})

    def opened(self, address):
        """The times of a page."""
        target = self.call("Target.createTarget", url="about:blank")["targetId"]
        session = self.call("Target.attachToTarget", targetId=target, flatten=True)["sessionId"]
        self.call("Page.enable", session)
        self.call("Performance.enable", session, timeDomain="threadTicks")
        self.call("Page.addScriptToEvaluateOnNewDocument", session, source=SCRIPT)
        self.call("Page.navigate", session, url=address)
        found = self.call("Runtime.evaluate", session, expression="window.opened", awaitPromise=True, returnByValue=True)
        metrics = self.call("Performance.getMetrics", session)["metrics"]
        [worked] = [it["value"] * 1000 for it in metrics if it["name"] == "ThreadTime"]
        return [round(it) if it is not None else -1 for it in [*found["result"]["value"], worked]]

    def close(self):
        self.call("Browser.close")
        self.ran.wait()
        os.close(self.to), os.close(self.answers)


def times_of(path, page):
    with tempfile.TemporaryDirectory() as folder:
        browser = Browser(path, folder)
        try:
            return browser.opened("file://" + os.path.abspath(page))
        finally:
            browser.close()


def logs(count):
    """A log of plain lines, and the same with a word in four in a colour."""
    pick = random.Random(1)
    lines = [[pick.choice(WORDS) for _ in range(pick.randrange(4, 14))] for _ in range(count)]
    colored = lambda word, at: "\x1b[%sm%s\x1b[m" % (pick.choice(COLORS), word) if at % 4 == 1 else word
    yield "plain", "".join(" ".join(line) + "\n" for line in lines)
    yield "coloured", "".join(" ".join(colored(*it[::-1]) for it in enumerate(line)) + "\n" for line in lines)


def pages(count, folder):
    for name, log in logs(count):
        for words in ([], ["--classes"], ["--lines"], ["--shown"]):
            path = os.path.join(folder, "-".join([name, *words]) + ".html")
            with open(path, "wb") as page:
                subprocess.run([PROGRAM, *words], input=log.encode(), stdout=page, check=True)
            yield path


def least(times):
    """The least of those that are known: a page may have no picture yet when all else is done."""
    return min((it for it in times if it >= 0), default=-1)


def main():
    parser = argparse.ArgumentParser(description=__doc__, formatter_class=argparse.RawDescriptionHelpFormatter)
    parser.add_argument("--rounds", type=int, default=5)
    parser.add_argument("--lines", type=int, default=100_000)
    parser.add_argument("page", nargs="*")
    options = parser.parse_args()
    browser = chromium.found()
    if not browser:
        parser.error("Chromium is not installed")
    with tempfile.TemporaryDirectory() as folder:
        named = options.page or list(pages(options.lines, folder))
        found = {page: [] for page in named}
        for _ in range(options.rounds):
            for page in named:
                found[page].append(times_of(browser, page))
        print("%-32s %6s %6s %6s %6s %6s    (load %.1f)" % ("page", "first", "load", "layout", "frame", "thread", os.getloadavg()[0]))
        for page, times in found.items():
            print("%-32s %6d %6d %6d %6d %6d" % (os.path.basename(page), *map(least, zip(*times))))


if __name__ == "__main__":
    main()
