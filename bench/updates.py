#!/usr/bin/env python3
"""Counts the bytes of `ansi2screen --updates` on recordings, beside those of the recording and of what tmux sends.

Usage: bench/updates.py [--program PROGRAM] [--size COLUMNSxROWS] [--folder FOLDER] [NAME ..]

NAMES are programs of bench/record.py, and htop, top, vim and mc where none is given. Each is recorded anew with the
times at which it wrote, or with --folder, its recording FOLDER/NAME.bin is taken, which has none. Counted are:

    recording   the bytes that the program wrote
    65536       what --updates writes of it by reads of 65536 bytes, as of a file or where the terminal is slow
    4096        the same in pieces of 4096 bytes, each handed on when the one before was answered
    as written  the same in the pieces that the program wrote
    tmux        what a tmux of our own sends to a client on a terminal of that size, to which the recording is
                written in the same pieces at the same times; its first screen, and what it sends as it ends, are not
                counted
"""

import argparse
import fcntl
import os
import pty
import select
import struct
import subprocess
import sys
import tempfile
import termios
import time

sys.dont_write_bytecode = True
ROOT = os.path.dirname(os.path.dirname(os.path.realpath(__file__)))
sys.path.append(os.path.join(ROOT, "tests", "screen"))

import record
import redrawn

NAMES = ["htop", "top", "vim", "mc"]
SIZES = 65536, 4096  # the bytes of a piece: what one read takes, and less
QUIET = 0.7  # the seconds after which tmux has nothing more to send


def updated(program, size, pieces):
    """How many bytes the updates have, where these pieces are read one after another."""
    options = argparse.Namespace(program=program, size=size)
    data, cuts = b"".join(pieces), []
    for piece in pieces[:-1]:
        cuts.append((cuts[-1] if cuts else 0) + len(piece))
    return len(redrawn.updates(options, data, cuts)[-1][1])


class Client:
    """A client of a tmux of our own, on a terminal whose bytes are counted."""

    def __init__(self, folder, columns, rows):
        pipe, self.count = os.path.join(folder, "stream"), 0
        os.mkfifo(pipe)
        self.tmux = ["tmux", "-u", "-f", "/dev/null", "-S", os.path.join(folder, "tmux")]
        words = [*self.tmux, "new-session", "stty raw -echo; cat %s -" % pipe, ";", "set", "-g", "status", "off"]
        self.process, self.terminal = pty.fork()
        if self.process == 0:
            fcntl.ioctl(0, termios.TIOCSWINSZ, struct.pack("HHHH", rows, columns, 0, 0))
            os.execvpe(words[0], words, dict(os.environ, TERM="xterm-256color", LC_ALL="C.UTF-8"))
        self.stream = os.open(pipe, os.O_WRONLY)
        self.count_for(2 * QUIET)
        self.count = 0

    def count_for(self, seconds):
        end = time.monotonic() + seconds
        while (left := end - time.monotonic()) > 0:
            if select.select([self.terminal], [], [], left)[0]:
                self.count += len(os.read(self.terminal, 1 << 16))

    def end(self):
        subprocess.run([*self.tmux, "kill-server"], capture_output=True)
        os.close(self.terminal)
        os.waitpid(self.process, 0)


def sent_by_tmux(pieces, columns, rows):
    with tempfile.TemporaryDirectory() as folder:
        client, started = Client(folder, columns, rows), time.monotonic()
        for moment, piece in pieces:
            client.count_for(max(0, started + moment - time.monotonic()))
            os.write(client.stream, piece)
        client.count_for(QUIET)
        client.end()
        return client.count


def main():
    reader = argparse.ArgumentParser(description=__doc__, formatter_class=argparse.RawDescriptionHelpFormatter)
    reader.add_argument("--program", default=os.path.join(ROOT, "crates", "ansi2screen", "out", "ansi2screen"))
    reader.add_argument("--size", default="120x40")
    reader.add_argument("--folder")
    reader.add_argument("names", nargs="*")
    options = reader.parse_args()
    columns, rows = map(int, options.size.split("x"))
    print("| Recording | bytes | %d | %d | as written | tmux |\n|---|---|---|---|---|---|" % SIZES)
    for name in options.names or NAMES:
        if options.folder:
            with open(os.path.join(options.folder, name + ".bin"), "rb") as file:
                pieces = [(0, file.read())]
        else:
            pieces = record.recorded(*record.PROGRAMS[name], columns, rows)
        data = b"".join(it for _, it in pieces)
        cuts = [[data[at : at + size] for at in range(0, len(data), size)] for size in SIZES]
        by_reads = [updated(options.program, options.size, cut) for cut in cuts]
        as_written = "" if options.folder else updated(options.program, options.size, [it for _, it in pieces])
        figures = name, len(data), *by_reads, as_written, sent_by_tmux(pieces, columns, rows)
        print("| %s | %s | %s | %s | %s | %s |" % figures, flush=True)


if __name__ == "__main__":
    main()
