#!/usr/bin/env python3
"""Compares ansi2screen by hand with tmux, xterm or libvterm: the text that is shown at the end of
generated streams, or of recordings.

Usage: tests/screen/compare.py [--count N] [--seed N] [--program PROGRAM] [--xterm | --libvterm]
                               [--shown | --drawn] [--size COLUMNSxROWS RECORDING ..]

    --count N          so many generated streams (default: 500)
    --seed N           the seed of the first (default: 1)
    --program PROGRAM  the built program (default: crates/ansi2screen/out/ansi2screen, or ansi2text)
    --xterm            in place of tmux, xterm, under an Xvfb of its own
    --libvterm         in place of tmux, libvterm (Debian's libvterm-dev), by tests/screen/vterm_text.c, which
                       cc makes a program of
    --shown            of recordings, ansi2text --shown beside tmux's history and screen, lines joined
                       where they wrapped (capture-pane -J), blanks at their ends left out
    --drawn            the terminal is given what ansi2screen --draw writes of a stream, in place of the stream,
                       behind another one
    --size .. RECORDING ..  files with the bytes of a stream, and the screen that they were made for, as
                       those of bench/record.py for 120x40

For xterm streams have every operation, in every state that they come to, but for what crates/ansi_screen/README.md
decides otherwise than xterm 379: REP past the end of the row, CBT at a pending wrap, DECRC in origin mode,
1049 where it shows already or a wrap is pending, CSI 0 T, fields with a colon, wide characters in the last
column without autowrap, ICH and IRM beside wide characters; and but for marks, which its checksums of cells
do not tell. It has faults, which they leave out too: DCH in a row with wide characters can lose the last
cell, and SU of a whole region clears the screen where it scrolls row by row, as it is asked to here, since
else it leaves halves of wide characters standing in rows that have yet to be drawn. For tmux they leave out
where crates/ansi_screen/README.md decides otherwise than tmux 3.3a does, and its faults: CHT and HPR, which it has
not; edits, line feeds and moves at a pending wrap; BS in the first column behind a row that was wrapped;
halves of wide characters; IL and DL outside the margins, and the column behind them; ICH of the whole rest
of a row, and IRM behind a wrap; where DECSTBM leaves the cursor in origin mode; DECSTR; 1049. tmux writes
line drawing as the letters that select it, and so it is compared.

For libvterm streams have every operation, often at a pending wrap, and two characters at the end, which show
where the cursor is. Where libvterm differs, an operation is left out or given in another form: each such place
is a row in tests/screen/vterm_differences.py, with a smallest stream, on which the two must indeed differ.

Each difference is told, and the last line is 'N agree, M differ'.
"""

import argparse
import os
import random
import re
import select
import subprocess
import sys
import tempfile
import time

sys.dont_write_bytecode = True

import streams
import terminals
import twin
import vterm_differences

ROOT = os.path.dirname(os.path.dirname(os.path.dirname(os.path.realpath(__file__))))
LETTERS = str.maketrans({drawn: c for c, drawn in twin.DRAWN.items() if drawn != " "})
PATIENCE = 5  # the seconds for which a terminal may take a stream


class Pane:
    """A pane of a tmux of our own, to which streams are written."""

    letters = LETTERS
    stream = staticmethod(streams.tmux)
    differences = []

    def __init__(self, folder, width, height):
        self.socket, self.number, self.captured = os.path.join(folder, "tmux"), 0, []
        pipe = os.path.join(folder, "stream")
        os.mkfifo(pipe)
        shell = "stty raw -echo; exec cat %s -" % pipe
        size = ["-x", str(width), "-y", str(height)]
        self.ask("new-session", "-d", *size, shell)
        self.ask("set", "-g", "status", "off")
        self.ask("resize-window", *size)
        self.out = open(pipe, "wb", buffering=0)

    def ask(self, *words):
        return terminals.asked_of_tmux(self.socket, *words)

    def shown(self, data):
        """The text of the pane after a reset and the stream."""
        self.tell(b"\x1b[?1049l\x1bc\x1b7\x1b(B\x1b)B\x0f")
        self.ask("clear-history")
        self.tell(data)
        return self.ask("capture-pane", "-p", *self.captured).decode()

    def tell(self, data):
        """Writes a stream; the title says when tmux has read it."""
        self.number += 1
        title = b"stream %d" % self.number
        self.out.write(data + b"\x1b]2;" + title + b"\x07")
        end = time.monotonic() + PATIENCE
        while self.ask("display", "-p", "#{pane_title}").strip() != title:
            if time.monotonic() > end:
                sys.exit("compare.py: tmux did not read the stream")
            time.sleep(0.005)

    def end(self):
        self.ask("kill-server")


class Xterm:
    """An xterm of our own, which is told streams and asked for the checksum of each cell: its character."""

    letters = {}
    stream = staticmethod(streams.xterm)
    differences = []
    LIBERTIES = ["allowWindowOps: true", "checksumExtension: 23", "utf8: 2", "scrollBar: false", "jumpScroll: false"]

    def __init__(self, folder, width, height):
        self.width, self.height = width, height
        self.server, self.program, self.terminal = terminals.xterm_under_xvfb(width, height, 8, self.LIBERTIES)
        self.read_until(b"\n")

    def read_until(self, last):
        read = b""
        while last not in read:
            if not select.select([self.terminal], [], [], PATIENCE)[0]:
                sys.exit("compare.py: xterm did not answer")
            read += os.read(self.terminal, 1 << 16)
        return read

    def shown(self, data):
        os.write(self.terminal, b"\x1b[!p\x1b[?1049l\x1bc" + data + b"\x1b[?6l")
        rows = []
        for row in range(1, self.height + 1):
            places = [(column, row, column, row, column) for column in range(1, self.width + 1)]
            os.write(self.terminal, b"".join(b"\x1b[%d;1;%d;%d;%d;%d*y" % place for place in places))
            read = self.read_until(b"\x1bP%d!~" % self.width)
            read += self.read_until(b"\x1b\\") if not read.endswith(b"\x1b\\") else b""
            cells = dict(re.findall(rb"\x1bP(\d+)!~([0-9A-F]{4})", read))
            codes = [int(cells[b"%d" % column], 16) for column, *_ in places]
            rows.append("".join(chr(code or 0x20) for code in codes if code != 0xFFFF))
        return "\n".join(rows)

    def end(self):
        self.program.terminate()
        self.server.terminate()


class Libvterm:
    """A program over libvterm that is run on each stream."""

    letters = {}
    stream = staticmethod(streams.libvterm)
    differences = vterm_differences.DIFFERENCES

    def __init__(self, folder, width, height):
        program = os.path.join(folder, "vterm_text")
        source = os.path.join(ROOT, "tests", "screen", "vterm_text.c")
        subprocess.run(["cc", "-O2", "-o", program, source, "-lvterm"], check=True)
        self.command = [program, str(width), str(height)]

    def shown(self, data):
        try:
            ended = subprocess.run(self.command, input=data, capture_output=True, timeout=PATIENCE)
        except subprocess.TimeoutExpired:
            return "no end"
        return "status %d" % ended.returncode if ended.returncode else ended.stdout.decode()

    def end(self):
        pass


def text_of(rows, letters):
    """Rows without the spaces at their ends and without the empty ones at the end."""
    return "\n".join(row.rstrip(" ") for row in rows.translate(letters).split("\n")).rstrip("\n")


def inputs(options, pane, width, height):
    """The streams, each with its name and whether the two must agree on it."""
    for path in options.recordings:
        with open(path, "rb") as recording:
            yield path, recording.read(), True
    if not options.recordings:
        for words, smallest, *_ in [] if options.drawn else pane.differences:
            yield "%s, %r" % (words, smallest), smallest.encode(), False
        for seed in range(options.seed, options.seed + options.count):
            data = pane.stream(random.Random(seed), width, height).encode()
            yield "stream %d, %r" % (seed, data), data, True


def main():
    reader = argparse.ArgumentParser(usage=__doc__.split("Usage: ")[1].split("\n\n")[0], description=__doc__)
    reader.add_argument("--count", type=int, default=500)
    reader.add_argument("--seed", type=int, default=1)
    reader.add_argument("--program")
    reader.add_argument("--xterm", dest="kind", action="store_const", const=Xterm, default=Pane)
    reader.add_argument("--libvterm", dest="kind", action="store_const", const=Libvterm)
    reader.add_argument("--shown", action="store_true")
    reader.add_argument("--drawn", action="store_true")
    reader.add_argument("--size", default="80x24")
    reader.add_argument("recordings", nargs="*")
    options = reader.parse_args()
    name = "ansi2text" if options.shown else "ansi2screen"
    program = options.program or os.path.join(ROOT, "crates", name, "out", name)
    width, height = map(int, options.size.split("x")) if options.recordings else (20, 6)
    agree, differ, before = 0, 0, b""
    with tempfile.TemporaryDirectory() as folder:
        pane = options.kind(folder, width, height)
        if options.shown:
            pane.captured = ["-J", "-S", "-"]
        for name, data, must_agree in inputs(options, pane, width, height):
            word = "--%s=%dx%d" % ("shown" if options.shown else "size", width, height)
            given = data
            if options.drawn:
                drawn = subprocess.run([program, word, "--draw"], input=data, capture_output=True, check=True)
                given, before = before + drawn.stdout, data
            theirs = text_of(pane.shown(given), pane.letters)
            run = subprocess.run([program, word], input=data, capture_output=True)
            ours = text_of(run.stdout.decode(), pane.letters)
            fits = must_agree == (ours == theirs)
            agree, differ = agree + (fits and must_agree), differ + (not fits)
            if not fits:
                print("%s\n    peer %r\n    ours %r" % (name, theirs, ours))
        pane.end()
    print("%d agree, %d differ" % (agree, differ))
    return 1 if differ else 0


if __name__ == "__main__":
    sys.exit(main())
