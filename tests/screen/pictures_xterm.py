#!/usr/bin/env python3
"""Compares pictures of ansi2svg with xterm's own of the same streams, by where each column stands.

Usage: tests/screen/pictures_xterm.py [--help] [--keep FOLDER] [PROGRAM]

    --keep FOLDER   what each drew is left there, to be looked at: NAME.svg, and NAME-xterm.png, NAME-rsvg.png, NAME-chromium.png
    PROGRAM         ansi2svg, if it is not crates/ansi2svg/out/ansi2svg

Ten streams of 80 columns and 24 rows: htop, mc, vim, less, git diff and pytest run here, cargo, docker and apt are those of
tests/screen/recordings, and one draws all of U+2500 to U+259F. xterm draws each under Xvfb, and rsvg-convert and Chromium draw the
picture that ansi2svg makes of it, for light pages and for dark ones, all in DejaVu Sans Mono in cells of 10 by 20 pixels. Of each cell in
which all show a letter, the middle of its ink is taken; of each column the median of the distances between xterm's middle and the other's
has to be at most half a pixel. What is not installed is left out, and said.

Each case that fails is told, and the last line is 'N passed, M failed'.
"""

import os
import pty
import shutil
import statistics
import struct
import subprocess
import sys
import tempfile
import termios
import time
from fcntl import ioctl

sys.dont_write_bytecode = True
ROOT = os.path.dirname(os.path.dirname(os.path.dirname(os.path.realpath(__file__))))
for it in ("tests", "tests/screen"):
    sys.path.insert(0, os.path.join(ROOT, it))

from lib import chromium
from lib import png
from lib import svg
import twin

COLUMNS, ROWS = 80, 24
WIDTH, HEIGHT = svg.CELL
FONT = "DejaVu Sans Mono:pixelsize=16.61"
MOST = 0.5  # pixels
PAGES = {"light": ("#ffffff", "#000000"), "dark": ("#1e1e1e", "#ffffff")}
TEST = "import pytest\n@pytest.mark.parametrize('n', range(30))\ndef test(n):\n    assert n != 17\n"
LIVE = {
    "htop": "htop",
    "mc": "mc -u",
    "vim": "vim -u NONE -N -c 'syntax on' -c 'set number' %s/tests/screen/record.py" % ROOT,
    "less": "less -N %s/README.md" % ROOT,
    "git diff": "git -C %s --no-pager diff --color=always HEAD~1 HEAD | head -40" % ROOT,
    "pytest": "cd ROOM && /usr/bin/python3 -m pytest --color=yes -q test_it.py",
}


def recorded(command, room, seconds=4):
    """What a program writes to a terminal of this size until then."""
    child, terminal = pty.fork()
    if not child:
        known = {**os.environ, "TERM": "xterm-256color", "HOME": room, "SHELL": "/bin/sh", "LC_ALL": "C.UTF-8"}
        os.execvpe("sh", ["sh", "-c", "sleep 0.5; " + command.replace("ROOM", room)], known)
    ioctl(terminal, termios.TIOCSWINSZ, struct.pack("HHHH", ROWS, COLUMNS, 0, 0))
    os.set_blocking(terminal, False)
    data, end = b"", time.monotonic() + seconds
    while time.monotonic() < end:
        try:
            data += os.read(terminal, 65536)
        except BlockingIOError:
            time.sleep(0.05)
        except OSError:  # (that is how Linux says that the other end is closed)
            break
    os.kill(child, 9)
    os.waitpid(child, 0)
    os.close(terminal)
    return data


def boxes():
    """All line drawing and blocks, in rows of 32, and frames of them."""
    rows = ["".join(map(chr, range(at, at + 32))) for at in range(0x2500, 0x25A0, 32)]
    frames = ["┌──┬──┐ ╔══╦══╗ ┏━━┳━━┓ ╭──╮ ▛▀▀▜", "│ab│cd│ ║ab║cd║ ┃ab┃cd┃ │ab│ ▌ab▐", "├──┼──┤ ╠══╬══╣ ┣━━╋━━┫ ╰──╯ ▙▄▄▟", "└──┴──┘ ╚══╩══╝ ┗━━┻━━┛ ▁▂▃▄▅▆▇█"]
    return "\r\n".join([*rows, "", *frames, "abcdefghij" * 8]).encode()


def streams(room):
    """Each stream by its name."""
    with open(room + "/test_it.py", "w", encoding="utf-8") as file:
        file.write(TEST)
    for name, command in LIVE.items():
        yield name, recorded(command, room)
    for name in "cargo", "docker", "apt":
        with open("%s/tests/screen/recordings/%s" % (ROOT, name), "rb") as file:
            yield name, file.read()
    yield "box drawing", boxes()


def in_xterm(data, page, room):
    """What xterm shows of a stream, as rows of pixels."""
    log, shown = room + "/log", room + "/shown"
    with open(log, "wb") as file:
        file.write(data + b"\x1b[?25l")
    if os.path.exists(shown):
        os.remove(shown)
    ends, begins = os.pipe()
    words = ["Xvfb", "-displayfd", str(begins), "-screen", "0", "1280x1024x24", "-nolisten", "tcp"]
    server = subprocess.Popen(words, pass_fds=[begins], stdout=subprocess.DEVNULL, stderr=subprocess.DEVNULL)
    os.close(begins)
    display = ":" + os.read(ends, 16).decode().strip()
    words = ["xterm", "-display", display, "-T", "picture", "-geometry", "%dx%d+0+0" % (COLUMNS, ROWS), "-fa", FONT, "-u8"]
    words += ["-xrm", "*allowTitleOps: false", "-bg", page[0], "-fg", page[1], "+sb", "-bw", "0", "-b", "0"]
    words += ["-e", "sh", "-c", "stty -onlcr; cat %s; touch %s; sleep 60" % (log, shown)]
    window = subprocess.Popen(words, stderr=subprocess.DEVNULL, env={**os.environ, "LC_ALL": "C.UTF-8"})
    try:
        for _ in range(100):
            time.sleep(0.1)
            if os.path.exists(shown):
                break
        time.sleep(1)  # (until it is drawn)
        dump = subprocess.run(["xwd", "-display", display, "-name", "picture"], capture_output=True, check=True).stdout
        return png.of_window(dump)
    finally:
        for it in (window, server):
            it.terminate()
            it.wait()


def by_rsvg(data):
    return subprocess.run(["rsvg-convert"], input=data, capture_output=True, check=True).stdout


def by_chromium(data, room):
    with open(room + "/it.svg", "wb") as file:
        file.write(data)
    words = ["--headless", "--no-sandbox", "--disable-gpu", "--hide-scrollbars", "--user-data-dir=%s/user" % room]
    words += ["--window-size=%d,%d" % (COLUMNS * WIDTH, ROWS * HEIGHT), "--screenshot=%s/it.png" % room, "file://%s/it.svg" % room]
    subprocess.run([chromium.found(), *words], stderr=subprocess.DEVNULL, stdout=subprocess.DEVNULL, timeout=chromium.SECONDS, check=True)
    with open(room + "/it.png", "rb") as file:
        return file.read()


def middle(rows, row, column):
    """The middle of what is not the ground in a cell, from the cell's left edge; None where there is nothing."""
    cell = [line[column * WIDTH : (column + 1) * WIDTH] for line in rows[row * HEIGHT : (row + 1) * HEIGHT]]
    ground = statistics.mode(it for line in cell for it in line)
    ink = [sum(sum(map(abs, map(int.__sub__, line[at], ground))) for line in cell) for at in range(WIDTH)]
    return sum((at + 0.5) * it for at, it in enumerate(ink)) / sum(ink) if sum(ink) > 500 else None


def columns_differ(theirs, ours, cells):
    """Says how far a column stands from xterm's, where that is too far, and how far the farthest one does."""
    if (len(theirs[0]), len(theirs)) != (len(ours[0]), len(ours)):
        return "sizes are %dx%d and %dx%d" % (len(theirs[0]), len(theirs), len(ours[0]), len(ours)), 0
    far = []
    for column in range(COLUMNS):
        found = [(middle(theirs, row, column), middle(ours, row, column)) for row in range(ROWS) if (row, column) in cells]
        found = [y - x for x, y in found if x is not None and y is not None]
        far += [(abs(statistics.median(found)), column)] if found else []
    most, column = max(far, default=(0, 0))
    return "column %d stands %.2f pixels off" % (column, most) if most > MOST else None, most


def cases(program, room, keep):
    drawers = {"rsvg": by_rsvg} if shutil.which("rsvg-convert") else {}
    drawers.update({"chromium": lambda it: by_chromium(it, room)} if chromium.found() else {})
    for name, data in streams(room):
        for scheme, page in PAGES.items():
            theirs = in_xterm(data, page, room)
            data_of = subprocess.run([program, "--" + scheme, "--size=%dx%d" % (COLUMNS, ROWS)], input=data, capture_output=True, check=True).stdout
            # (letters alone: a wide character stands in two cells, and lines are drawn otherwise)
            cells = {at for at, it in svg.Picture(data_of).cells(lambda c: twin.columns(c) == 0).items() if it[0].isalnum() and it[1] == 1}
            drawn = {"xterm": png.data_of(theirs), **{it: draw(data_of) for it, draw in drawers.items()}}
            for it, text in {**{"-%s.png" % one: two for one, two in drawn.items()}, ".svg": data_of}.items() if keep else ():
                with open("%s/%s-%s%s" % (keep, name.replace(" ", "_"), scheme, it), "wb") as file:
                    file.write(text)
            for it in drawers:
                why, most = columns_differ(theirs, png.rows_of(drawn[it]), cells)
                print("%s, %s, %s: %.2f pixels at most, of %d letters" % (name, scheme, it, most, len(cells)), flush=True)
                yield "%s, %s, %s" % (name, scheme, it), why or (None if cells else "it has no letters")


def main(words):
    if words == ["--help"]:
        print(__doc__.strip())
        return 0
    keep = words.pop(words.index("--keep") + 1) if "--keep" in words[:-1] else None
    words = [it for it in words if it != "--keep"]
    missing = [it for it in ("Xvfb", "xterm", "xwd") if not shutil.which(it)]
    if missing:
        print("tests/screen/pictures_xterm.py: there is no %s" % ", ".join(missing), file=sys.stderr)
        return 1
    if keep:
        os.makedirs(keep, exist_ok=True)
    program = os.path.abspath(words[0]) if words else ROOT + "/crates/ansi2svg/out/ansi2svg"
    passed = failed = 0
    with tempfile.TemporaryDirectory() as room:
        for name, fault in cases(program, room, keep):
            if fault:
                print("FAILED  %s: %s" % (name, fault))
            passed, failed = passed + (not fault), failed + bool(fault)
    print("%d passed, %d failed" % (passed, failed))
    return 1 if failed else 0


if __name__ == "__main__":
    sys.exit(main(sys.argv[1:]))
