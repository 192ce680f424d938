"""Chromium, where it is installed: it reads a page without a screen, and answers with what the page is then."""

import os
import shutil
import subprocess
import tempfile

NAMES = "chromium", "chromium-browser", "google-chrome"
WORDS = ["--headless", "--no-sandbox", "--disable-gpu", "--dump-dom"]
DARK = "--blink-settings=preferredColorScheme=0"  # as for a reader who has chosen dark pages
SECONDS = 120  # how long it is waited for


def found():
    """The browser's path, or None."""
    return next(filter(None, map(shutil.which, NAMES)), None)


def read(browser, page, *words):
    """The page, a text, as the browser has it after its scripts have run; with these words of the browser's beside ours."""
    with tempfile.TemporaryDirectory() as folder:
        at = os.path.join(folder, "page.html")
        with open(at, "w", encoding="utf-8") as it:
            it.write(page)
        return read_at(browser, "file://" + at, *words)


def read_at(browser, address, *words):
    """The page at an address, likewise."""
    with tempfile.TemporaryDirectory() as folder:
        command = [browser, *WORDS, *words, "--user-data-dir=%s/user" % folder, address]
        ran = subprocess.run(command, stdout=subprocess.PIPE, stderr=subprocess.DEVNULL, timeout=SECONDS)
    return ran.stdout.decode("utf-8", "replace")
