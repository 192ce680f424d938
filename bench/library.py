#!/usr/bin/env python3
"""Times the stripper's library from C, on the five kinds of streams; bench/python.py does from Python.

Usage: bench/library.py [--peer COMMAND] [--bytes N]

`rt lib` in crates/ansi must have built the archive. It is examples/filter.c, which reads 4096 bytes at
once, beside a peer that strips standard input, such as one over the Rust crate. Each figure is the least
wall time of five runs, in seconds.
"""

import argparse
import os
import shlex
import subprocess
import sys
import tempfile

sys.dont_write_bytecode = True

import measure

ROOT = os.path.dirname(measure.HERE)
ARCHIVE = "%s/crates/ansi/out/libansi.a" % ROOT
EXAMPLES = "%s/examples" % ROOT


def build(room):
    source = ["-I%s/include" % ROOT, EXAMPLES + "/filter.c", ARCHIVE]
    subprocess.run(["cc", "-O2", *source, "-o", room + "/filter"], check=True)
    return [room + "/filter"]


def main():
    parser = argparse.ArgumentParser(description=__doc__, formatter_class=argparse.RawDescriptionHelpFormatter)
    parser.add_argument("--peer")
    parser.add_argument("--bytes", type=int, default=16 << 20)
    options = parser.parse_args()
    with tempfile.TemporaryDirectory() as room:
        filtering = build(room)
        peer = " %8s %6s" % ("peer", "ratio") if options.peer else ""
        print("%-12s %8s" % ("seconds", "C") + peer)
        for corpus in measure.CORPORA:
            stream = measure.corpus(corpus, options.bytes)
            path = "%s/%s" % (room, corpus.__name__)
            with open(path, "wb") as it:
                it.write(stream)
            ours = measure.seconds(filtering, path)
            row = "%-12s %8.3f" % (corpus.__name__, ours)
            if options.peer:
                peer = shlex.split(options.peer)
                if measure.output(filtering, path) != measure.output(peer, path):
                    sys.exit("library.py: the outputs differ on " + corpus.__name__)
                theirs = measure.seconds(peer, path)
                row += " %8.3f %6.2f" % (theirs, ours / theirs)
            print(row, flush=True)


if __name__ == "__main__":
    main()
