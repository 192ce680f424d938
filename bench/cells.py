#!/usr/bin/env python3
"""Counts the instructions of an update, for each cell of the screen, by valgrind.

Usage: bench/cells.py [--program PROGRAM] [--size COLUMNSxROWS]

PROGRAM is the built ansi2screen (default: crates/ansi2screen/out/ansi2screen). It is run with --updates: a
screen full of words comes first, and then pieces, each behind the update to the one before, that change a cell or two of
a row, move the cursor, or change nothing. What a piece costs more than none
is divided by the cells of the screen. In the first figure reading the piece, the parser, both screens and the write are
counted with the update; the second is what is executed inside of the call of `update_noted` alone, and of what it calls.
"""

import argparse
import os
import random
import re
import select
import subprocess
import sys
import tempfile

sys.dont_write_bytecode = True

import measure

HERE = os.path.dirname(os.path.abspath(__file__))
PIECES = 6
CALL = "screen_draw::update_noted*"  # the call, as the program's symbols name it
QUIET = 0.5  # the seconds of silence behind which a piece counts as shown; valgrind is slow
PATIENCE = 60  # the seconds in which something of it has to come


def full(columns, rows):
    """A screen full of words."""
    pick = random.Random(7)
    letters = "abcdefghijklmnop  "
    lines = ["".join(pick.choice(letters) for _ in range(columns - 1)) for _ in range(rows)]
    return "".join("\x1b[%d;1H%s" % (row + 1, line) for row, line in enumerate(lines)).encode()


def read_until_quiet(stream, most):
    """What is written until nothing comes for a while: for so long at most, where nothing has come."""
    got = b""
    while select.select([stream], [], [], QUIET if got else most)[0]:
        some = os.read(stream.fileno(), 65536)
        if not some:
            break
        got += some
    return got


def instructions(program, size, pieces, inside=()):
    """The instructions of a run that is given these pieces, all or those inside of a call, and the bytes of the
    updates behind the first."""
    with tempfile.TemporaryDirectory() as folder:
        tool = ["valgrind", "--tool=callgrind", "--callgrind-out-file=" + os.path.join(folder, "out")]
        words = [*tool, *("--toggle-collect=" + call for call in inside), program, "--updates", "--size=" + size]
        pipes = {"stdin": subprocess.PIPE, "stdout": subprocess.PIPE, "stderr": subprocess.PIPE, "bufsize": 0}
        run = subprocess.Popen(words, env=dict(os.environ, GLIBC_TUNABLES=measure.COUNTED), **pipes)
        shown = [read_until_quiet(run.stdout, PATIENCE)]
        for piece in pieces:
            run.stdin.write(piece)
            shown.append(read_until_quiet(run.stdout, PATIENCE))
        run.stdin.close()
        found = re.search(rb"Collected : (\d+)", run.stderr.read())
        if run.wait() != 0 or not found:
            sys.exit("cells.py: %s failed under valgrind" % program)
    return int(found[1]), sum(map(len, shown[2:]))


def ways(columns):
    """What changes a row, by name: the column where the cursor goes first, and what comes there."""
    return {
        "one cell": (5, "%c"),
        "in column 1": (1, "%c"),
        "in the last": (columns, "%c"),
        "over the row's end": (columns, "%c+"),
        "a mark": (5, "%c\N{COMBINING ACUTE ACCENT}"),
        "a wide character": (5, "\u6f22%c"),
        "behind sgr0": (5, "\x1b(B\x1b[m%c"),
        "ECH": (5, "\x1b[X%.0s"),
        "EL": (columns - 1, "\x1b[K%.0s"),
        "ICH": (columns - 1, "\x1b[@%.0s"),
        "DCH": (columns - 1, "\x1b[P%.0s"),
        "the cursor alone": (5, "%.0s"),
    }


def costs(program, size, cases, inside):
    """For each of these ways the instructions of an update, all or those inside of a call, and the bytes that it writes."""
    columns, rows = map(int, size.split("x"))
    first = full(columns, rows)
    begun = instructions(program, size, [first], inside)[0]
    if not begun:
        sys.exit("cells.py: %s has no %s out of line" % (program, CALL))
    for name, (column, text) in cases.items():
        pieces = ["\x1b[%d;%dH" % (row, column) + text % chr(64 + row) for row in range(3, 3 + PIECES)]
        count, written = instructions(program, size, [first, *map(str.encode, pieces)], inside)
        yield name, (count - begun) / PIECES, written / PIECES


def main():
    parser = argparse.ArgumentParser(usage=__doc__)
    parser.add_argument("--program", default=os.path.join(HERE, "../crates/ansi2screen/out/ansi2screen"))
    parser.add_argument("--size", default="120x40")
    options = parser.parse_args()
    columns, rows = map(int, options.size.split("x"))
    cases = {**ways(columns), "nothing, by ED 3": (5, "\x1b[3J%.0s")}
    for inside in (), (CALL,):
        for name, cost, written in costs(options.program, options.size, cases, inside):
            words = name, "the call alone" if inside else "", cost, cost / (columns * rows), written
            print("%-18s %-15s %9.0f instructions, %6.2f a cell, %5.1f bytes" % words, flush=True)


if __name__ == "__main__":
    main()
