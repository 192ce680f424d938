#!/usr/bin/env python3
"""Counts what the programs cost for each input byte, on five kinds of streams or on recordings.

Usage: bench/measure.py [--peer COMMAND].. [--mode log|canon|strip|html|pieces|html-pieces]
                        [--bytes N] [--recordings FOLDER] [--wall BYTES] [PROGRAM]

PROGRAM is the built program (default: crates/parselog/out/parselog in modes log and canon,
crates/ansi2text/out/ansi2text in strip, crates/ansi2html/out/ansi2html in html; in pieces
examples/filter.c over the C library, which hands pieces of 4096 bytes to it, and in html-pieces
examples/page.c: `rt lib` in crates/ansi must have built that). Instructions are those of
`valgrind --tool=callgrind`, less those of an empty input. Program and peers are counted in one
environment, in which the C library clears and copies large blocks by vectors (COUNTED below): by `rep stosb`
and `rep movsb`, its other way, callgrind counts one instruction for each byte. The wall time is the least of
five runs without valgrind and without these settings, beside that of `cat`, and the machine's load is said
with it; with --wall the stream is repeated to that many bytes for it. Peers are measured in the same run, and
the ratio is printed. In log and canon a peer, such as a build of the Rust crate, is called with that word, and
must write the same bytes. In the other modes it is called as it stands, and `differs` is printed where it
writes other bytes.

With --recordings the streams are the files FOLDER/*.bin, which bench/record.py makes.
"""

import argparse
import os
import random
import re
import shlex
import socket
import subprocess
import sys
import tempfile
import threading
import time

HERE = os.path.dirname(os.path.abspath(__file__))
SMALL = "abcdefghijklmnopqrstuvwxyz"


def word(pick, letters, most=9):
    return "".join(pick.choice(letters) for _ in range(pick.randint(2, most)))


def text(pick):
    """Plain lines, with no sequence at all."""
    return " ".join(word(pick, SMALL + "ABCDEF0123456789.,-_/") for _ in range(12)) + "\n"


def colours(pick):
    """What a compiler or a test run prints: a colour about every ten characters."""
    codes = ["0", "1", "31", "1;32", "38;5;208", "38:2:255:0:17"]
    return "".join("\x1b[%sm%s ok " % (pick.choice(codes), word(pick, SMALL)) for _ in range(8)) + "\x1b[0m\n"


def dense(pick):
    """What a full-screen program draws: cursor moves, erasures and modes, little text."""
    line = ""
    for _ in range(10):
        line += "\x1b[%d;%dH" % (pick.randint(1, 50), pick.randint(1, 160))
        line += pick.choice(["\x1b[K", "\x1b[?25l", "\x1b[38;2;1;22;133m", "\x1b(B\x1b[m"])
        line += word(pick, SMALL, 4)
    return line


def characters(pick):
    """Characters of one to four bytes."""
    alphabets = [SMALL, "äöüßéèñçø", "的一是在不了有和人这", "😀🚀🎉🔥"]
    return " ".join(word(pick, pick.choice(alphabets)) for _ in range(12)) + "\n"


def strings(pick):
    """Titles, hyperlinks and device control strings."""
    link = "\x1b]8;;http://example.com/%s\x1b\\%s\x1b]8;;\x1b\\" % (word(pick, SMALL), word(pick, SMALL))
    sixel = "\x1bPq#0;2;0;0;0%s\x1b\\" % "".join(pick.choice("?@ABCDEFGHIJKLMNO~-$") for _ in range(60))
    return link + "\x1b]0;%s\x07" % word(pick, SMALL) + sixel + "\r\n"


CORPORA = [text, colours, dense, characters, strings]
# the modes, and the words that the program is called with
WORDS = {"log": ["log"], "canon": ["canon"], "strip": [], "html": ["--fragment"], "pieces": [], "html-pieces": []}


# how programs are counted: glibc goes by vectors for blocks below this size (`ld.so --list-tunables`)
COUNTED = "glibc.cpu.x86_rep_stosb_threshold=1000000:glibc.cpu.x86_rep_movsb_threshold=1000000"


def corpus(make_line, size):
    pick = random.Random(7)
    block = "".join(make_line(pick) for _ in range(1000)).encode()
    return (block * (size // len(block) + 1))[:size]


def instructions(command, path):
    with open(path, "rb") as data:
        return counted(command, data)


def instructions_of_pieces(command, pieces):
    """The same where each read is given one of these pieces, by a socket that keeps them apart."""
    ours, given = socket.socketpair(socket.AF_UNIX, socket.SOCK_SEQPACKET)
    hand_on = threading.Thread(target=hand_on_pieces, args=(ours, pieces))
    with given:
        hand_on.start()
        count = counted(command, given)
    hand_on.join()
    return count


def hand_on_pieces(there, pieces):
    with there:
        for piece in pieces:
            try:
                there.send(piece)
            except BrokenPipeError:
                return


def counted(command, data):
    with tempfile.TemporaryDirectory() as folder:
        tool = ["valgrind", "--tool=callgrind", "--callgrind-out-file=" + os.path.join(folder, "out")]
        environment = dict(os.environ, GLIBC_TUNABLES=COUNTED)
        done = subprocess.run(
            tool + command, stdin=data, stdout=subprocess.DEVNULL, stderr=subprocess.PIPE, env=environment
        )
    found = re.search(rb"Collected : (\d+)", done.stderr)
    if done.returncode != 0 or found is None:
        sys.exit("measure.py: %s failed under valgrind" % command[0])
    return int(found.group(1))


def seconds(command, path):
    best = None
    for _ in range(5):
        with open(path, "rb") as data:
            start = time.perf_counter()
            subprocess.run(command, stdin=data, stdout=subprocess.DEVNULL, check=True)
            took = time.perf_counter() - start
        best = took if best is None else min(best, took)
    return best


def output(command, path):
    with open(path, "rb") as data:
        return subprocess.run(command, stdin=data, stdout=subprocess.PIPE, check=True).stdout


def repeated(path, size):
    """The stream, again and again to so many bytes; as it is, where it has as many."""
    if os.path.getsize(path) >= size:
        return path
    with open(path, "rb") as file:
        block = file.read()
    longer = path + ".long"
    with open(longer, "wb") as file:
        for _ in range(size // len(block) + 1):
            file.write(block)
    return longer


def measure(command, path, long, empty):
    size = os.path.getsize(path)
    return (instructions(command, path) - instructions(command, empty)) / size, seconds(command, long)


def row_of(ours, peers, path, empty, options):
    long = repeated(path, options.wall)
    cost, wall = measure(ours, path, long, empty)
    row = "%12.1f %9.3f %9.3f" % (cost, wall, seconds(["cat"], long))
    for peer in peers:
        other, other_wall = measure(peer, path, long, empty)
        row += "   %12.1f %9.3f %7.2f" % (other, other_wall, cost / other)
        if output(ours, path) != output(peer, path):
            if WORDS[options.mode]:
                sys.exit("measure.py: the outputs differ on " + os.path.basename(path))
            row += " differs"
    if long != path:
        os.remove(long)
    return row


def built_with_the_library(name, folder):
    """A program of examples/ over the C library."""
    root = os.path.dirname(HERE)
    program = os.path.join(folder, name)
    sources = [root + "/examples/%s.c" % name, root + "/crates/ansi/out/libansi.a"]
    subprocess.run(["cc", "-O2", "-I%s/include" % root, "-o", program] + sources, check=True)
    return program


def program_of(mode, folder):
    if mode.endswith("pieces"):
        return built_with_the_library("page" if mode == "html-pieces" else "filter", folder)
    name = {"strip": "ansi2text", "html": "ansi2html"}.get(mode, "parselog")
    return os.path.join(HERE, "../crates/%s/out/%s" % (name, name))


def streams(options, folder):
    """The names of the streams and where they stand."""
    if options.recordings:
        found = sorted(name for name in os.listdir(options.recordings) if name.endswith(".bin"))
        return [(name[:-4], os.path.join(options.recordings, name)) for name in found]
    made = []
    for make_line in CORPORA:
        path = os.path.join(folder, make_line.__name__)
        with open(path, "wb") as file:
            file.write(corpus(make_line, options.bytes))
        made.append((make_line.__name__, path))
    return made


def load():
    return "load %.2f on %d processors" % (os.getloadavg()[0], os.cpu_count())


def main():
    parser = argparse.ArgumentParser(description=__doc__, formatter_class=argparse.RawDescriptionHelpFormatter)
    parser.add_argument("--peer", action="append", default=[])
    parser.add_argument("--mode", choices=list(WORDS), default="log")
    parser.add_argument("--bytes", type=int, default=1 << 20)
    parser.add_argument("--recordings")
    parser.add_argument("--wall", type=int, default=0)
    parser.add_argument("program", nargs="?")
    options = parser.parse_args()
    words = WORDS[options.mode]
    with tempfile.TemporaryDirectory() as folder:
        ours = [options.program or program_of(options.mode, folder)] + words
        peers = [shlex.split(peer) + words for peer in options.peer]
        heading = "   %12s %9s %7s" % ("peer", "seconds", "ratio")
        print("%-12s %12s %9s %9s" % (options.mode, "instr/byte", "seconds", "cat") + heading * len(peers))
        print(load())
        empty = os.path.join(folder, "empty")
        open(empty, "wb").close()
        for name, path in streams(options, folder):
            print("%-12s " % name + row_of(ours, peers, path, empty, options), flush=True)
        print(load())


if __name__ == "__main__":
    main()
