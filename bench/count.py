#!/usr/bin/env python3
"""Counts what the parser alone costs for each input byte, with a performer that counts.

Usage: bench/count.py [--peer COMMAND] [--bytes N] [--piece N] [PROGRAM]

PROGRAM is the built program (default: crates/count_calls/out/count_calls, which `rt run` in
crates/count_calls leaves). A peer is run as `COMMAND bench FILE REPEAT`. The figures are
instructions of `valgrind --tool=callgrind`: two passes less one pass. With --piece the bytes go
in pieces of that size, and with --piece 0 each by `advance`. Where libvterm is installed
(Debian's libvterm-dev), its parser is measured too.
"""

import argparse
import os
import subprocess
import sys
import tempfile

import measure

HERE = os.path.dirname(os.path.abspath(__file__))
PROGRAM = os.path.join(HERE, "../crates/count_calls/out/count_calls")


def build_vterm(folder):
    """The same count by libvterm's parser, where gcc and libvterm are there."""
    program = os.path.join(folder, "vterm")
    command = ["gcc", "-O2", "-o", program, os.path.join(HERE, "vterm.c"), "-lvterm"]
    try:
        done = subprocess.run(command, stderr=subprocess.DEVNULL)
    except FileNotFoundError:
        return None
    return program if done.returncode == 0 else None


def main():
    parser = argparse.ArgumentParser(description=__doc__, formatter_class=argparse.RawDescriptionHelpFormatter)
    parser.add_argument("--peer")
    parser.add_argument("--bytes", type=int, default=1 << 18)
    parser.add_argument("--piece", type=int)
    parser.add_argument("program", nargs="?", default=PROGRAM)
    options = parser.parse_args()
    if not os.path.isfile(options.program):
        sys.exit("count.py: %s is not built" % options.program)
    with tempfile.TemporaryDirectory() as folder:
        measure_all(options, folder)


def measure_all(options, folder):
    vterm = build_vterm(folder)
    piece = [] if options.piece is None else [str(options.piece)]

    def cost(command, path, more=()):
        once, twice = [measure.instructions(command + [path, str(n), *more], os.devnull) for n in (1, 2)]
        return (twice - once) / options.bytes

    head = "%-12s %12s" % ("count", "instr/byte")
    head += "   %12s %7s" % ("peer", "ratio") if options.peer else ""
    print(head + ("   %12s" % "libvterm" if vterm else ""))
    for make_line in measure.CORPORA:
        path = os.path.join(folder, make_line.__name__)
        with open(path, "wb") as file:
            file.write(measure.corpus(make_line, options.bytes))
        ours = cost([os.path.abspath(options.program)], path, piece)
        row = "%-12s %12.1f" % (make_line.__name__, ours)
        if options.peer:
            other = cost([options.peer, "bench"], path)
            row += "   %12.1f %7.2f" % (other, ours / other)
        if vterm:
            row += "   %12.1f" % cost([vterm], path)
        print(row, flush=True)


if __name__ == "__main__":
    main()
