#!/usr/bin/env python3
"""Runs a command, and where it passes these scripts of tests/, side by side: what `make check` is.

Usage: tests/side_by_side.py [--help] COMMAND [--but SCRIPT ..] [SCRIPT ..]

    COMMAND        runs first, and alone; what it writes is shown as it comes
    SCRIPT         the name of a script of this folder; what it writes is shown once it has ended
    --but SCRIPT   one that is not run

Each has to end with status 0 and a last line 'N passed, M failed', where N is not 0 and M is. A script that is not
there, is killed or counts nothing is a failure, and so is one of this folder that is not named. At the end there is a
line for each, with what it took on the clock and of processors, and the last line is 'N passed, M failed', of all.
"""

import concurrent.futures
import os
import re
import shlex
import subprocess
import sys
import tempfile
import threading
import time

FOLDER = os.path.dirname(os.path.realpath(__file__))
COUNT = re.compile(r"(\d+) passed, (\d+) failed")
# (a make that a script runs is none within the make that may run this)
KNOWN = {name: value for name, value in os.environ.items() if name not in ("MAKEFLAGS", "MAKELEVEL", "MFLAGS")}
printing = threading.Lock()


class Ran:
    """What a command came to: its counts, why it counts as failed where it does not say so, and what it took."""

    def __init__(self, name, words, echo):
        self.name, self.passed, self.failed, self.why = name, 0, 0, None
        started, status, lines, used = time.monotonic(), None, [], (0, 0)
        try:
            status, lines, used = run(words, echo)
        except OSError as error:
            self.why = "it could not be run: %s" % error
        count = COUNT.fullmatch(lines[-1]) if lines else None
        if count:
            self.passed, self.failed = map(int, count.groups())
        if self.why is None and not self.failed:
            self.why = why_failed(status, count, self.passed)
        self.failed += self.why is not None
        self.seconds, self.processors = time.monotonic() - started, sum(used)

    def shown(self):
        taken = "%-18s %5.0f s, %5.0f s of processors" % (self.name, self.seconds, self.processors)
        return "%s: %d passed, %d failed%s" % (taken, self.passed, self.failed, self.why and " (%s)" % self.why or "")


def why_failed(status, count, passed):
    """Why what counts no failure is one, or None."""
    if status < 0:
        return "it was killed by signal %d" % -status
    if status:
        return "it ended with status %d" % status
    return None if count and passed else "it counts nothing"


def run(words, echo):
    """Runs a command, and answers its status, the lines that it wrote, and the processors' seconds that it took."""
    with tempfile.TemporaryFile() as kept:
        streams = {"stdin": subprocess.DEVNULL, "stderr": subprocess.STDOUT, "env": KNOWN}
        process = subprocess.Popen(words, stdout=subprocess.PIPE if echo else kept, **streams)
        for line in process.stdout if echo else ():
            kept.write(line)
            show(line)
        _, status, used = os.wait4(process.pid, 0)
        process.returncode = os.waitstatus_to_exitcode(status)
        kept.seek(0)
        text = kept.read()
    if not echo:
        show(text)
    return process.returncode, text.decode(errors="replace").strip().split("\n"), (used.ru_utime, used.ru_stime)


def show(text):
    with printing:
        sys.stdout.buffer.write(text)
        sys.stdout.buffer.flush()


def scripts_here():
    return {it for it in os.listdir(FOLDER) if "." not in it and os.path.isfile(os.path.join(FOLDER, it))}


def main(words):
    if not words or words[0].startswith("-"):
        print(__doc__.strip(), file=sys.stdout if words == ["--help"] else sys.stderr)
        return 0 if words == ["--help"] else 2
    first, words = words[0], words[1:]
    left = {it for before, it in zip(words, words[1:]) if before == "--but"}
    names = [it for it in words if it not in left and it != "--but"]
    unnamed = sorted(scripts_here() - set(names) - left)
    ran = [Ran(first, shlex.split(first), True)]
    if not ran[0].failed:
        of = lambda name: Ran("tests/" + name, [sys.executable, os.path.join(FOLDER, name)], False)
        with concurrent.futures.ThreadPoolExecutor(max(1, len(names))) as pool:
            ran += pool.map(of, names)
    for it in ran:
        print(it.shown())
    for it in unnamed:
        print("tests/%s: it is not among the scripts that are run" % it)
    failed = sum(it.failed for it in ran) + len(unnamed)
    print("%d passed, %d failed" % (sum(it.passed for it in ran), failed))
    return 1 if failed else 0


if __name__ == "__main__":
    sys.exit(main(sys.argv[1:]))
