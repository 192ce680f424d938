#!/usr/bin/env python3
"""Compares what a program writes with what a peer writes of the same bytes.

Usage: bench/compare.py PROGRAM PEER [--cut] [--length N] [--streams N] [--seed WORD]

PROGRAM and PEER are commands that read standard input, such as 'out/parselog log' and a program
built of the Rust crate's sources, or a model. They are given

    every string of up to N letters (default 4) of an alphabet that has each class of bytes,
    each byte, and each string of two letters, after beginnings that lead deep into a sequence
    or up to a limit, and
    N random streams (default 20000) of sequences with numbers and lengths at the limits, each
    damaged or cut anywhere.

Many go in one run, with bytes between two after which every parser is as new; so pieces that a
program reads end anywhere too. With --cut PROGRAM is handed each of them cut in two at every place, once for
each place, and a read of it brings one piece; PEER reads the same bytes. After a beginning only each byte
stands then. The shortest differences are shown first, made smaller.
"""

import argparse
import concurrent.futures
import contextlib
import itertools
import os
import random
import shlex
import socket
import subprocess
import sys
import threading

# ESC ends what is open (or breaks a character), ESC begins a sequence, 18 cancels it; 0A shows.
BETWEEN = b"\x1b\x1b\x18\n"
LETTERS = bytes.fromhex(
    "00 07 18 1B 20 24 39 3A 3B 3F 41 50 58 5B 5C 5D 6D 7F 80 9C C1 C3 E0 A0 F0 F5"
)
ESCAPES = [b" ", b" !", b' !"', b"X", b"^a", b"_", b"\0\x80"]
CONTROLS = [b"1", b"?1;", b"1:2", b" ", b"? !", b"??", b"6553", b";" * 31, b":" * 32, b";" * 33]
DEVICES = [b"", b"1", b"?1;", b"1 ", b"??", b"qa", b";" * 32]
COMMANDS = [
    *[b"", b"a;", b";" * 15, b";" * 16 + b"a"],
    *[b"a" * 1023, b"a" + b";" * 15 + b"a" * 1022],
]
BEGINNINGS = [
    *(b"\x1b" + it for it in ESCAPES),
    *(b"\x1b[" + it for it in CONTROLS),
    *(b"\x1bP" + it for it in DEVICES),
    *(b"\x1b]" + it for it in COMMANDS),
    *(bytes.fromhex(it) for it in ("E2 82", "ED", "EF BF", "F0 9F 98", "F4")),
]
CHUNK = 1 << 18  # the bytes of one run, each place that they are cut at counted
PIECE = 4096  # the bytes of a read, at most
SHOWN = 10  # so many differences end the search


# ------------------------------------------------------------------ what is compared


def short_strings(length):
    for size in range(length + 1):
        for letters in itertools.product(LETTERS, repeat=size):
            yield bytes(letters)


def continued_strings(length):
    tails = [bytes([it]) for it in range(256)]
    tails += [bytes(it) for it in itertools.product(LETTERS, repeat=2) if length > 1]
    for beginning in sorted(BEGINNINGS, key=len):
        for tail in tails:
            yield beginning + tail


def number(chance):
    limits = (0, 9, 255, 6553, 6554, 65534, 65535, 65536, 655350, 1 << 32, 1 << 64)
    plain, limit = b"%d" % chance.randrange(200), b"%d" % chance.choice(limits)
    return chance.choice((b"", plain, limit, b"0" * chance.randrange(7)))


def header(chance):
    """A marker, fields with their separators, intermediates, a final byte, in most cases."""
    fields = chance.choice((0, 1, 1, 2, 3, 5, 16, 31, 32, 33, 40))
    text = b"".join(number(chance) + chance.choice((b";", b";", b":")) for _ in range(fields))
    marker, final = chance.choice((b"", b"", b"?", b">")), bytes([chance.randrange(0x40, 0x7F)])
    intermediates = bytes(chance.choices(range(0x20, 0x30), k=chance.choice((0, 0, 0, 1, 2, 3))))
    return marker + text + number(chance) + intermediates + final


def command_text(chance):
    """Parts of an operating system command, some up to the limits of parts and bytes."""
    parts = chance.choice((1, 2, 3, 15, 16, 17, 20))
    rest = chance.choice((0, 5, 5, 5, 1022, 1023, 1024, 1030))
    text = chance.choices(range(0x20, 0x100), k=rest)
    for _ in range(parts - 1):
        text.insert(chance.randint(0, len(text)), 0x3B)
    return bytes(text)


def any_bytes(chance, most=8):
    return chance.randbytes(chance.randint(0, most))


def sequence(chance):
    """A sequence, a character or some bytes."""
    end = chance.choice((b"\x07", b"\x9c", b"\x1b\\", b"\x1b", b"\x18", b"\x1a", b""))
    kind = chance.randrange(8)
    if kind <= 1:
        return b"\x1b[" + header(chance)
    if kind == 2:
        intermediates = bytes(chance.choices(range(0x20, 0x30), k=chance.randrange(4)))
        return b"\x1b" + intermediates + bytes([chance.randrange(0x30, 0x7F)])
    if kind == 3:
        return b"\x1b]" + command_text(chance) + end
    if kind == 4:
        return b"\x1bP" + header(chance) + any_bytes(chance) + end
    if kind == 5:
        return b"\x1b" + chance.choice((b"X", b"^", b"_")) + any_bytes(chance) + end
    if kind == 6:
        limits = (0x80, 0x800, 0x10000, 0x110000)
        return chr(chance.randrange(chance.choice(limits))).encode("utf-8", "surrogatepass")
    return any_bytes(chance)


def damaged(chance, text):
    """As it stands, cut short, without a byte, or with some bytes put in."""
    at, kind = chance.randint(0, len(text)), chance.randrange(6)
    if kind == 0:
        return text[:at]
    if kind == 1:
        return text[:at] + text[at + 1 :]
    if kind == 2:
        letter = bytes([chance.choice(LETTERS)])
        return text[:at] + chance.choice((letter, any_bytes(chance, 3))) + text[at:]
    return text


def random_streams(number, seed):
    for at in range(number):
        chance = random.Random("%s %d" % (seed, at))
        count = chance.choice((1, 2, 3, 8, 20))
        yield b"".join(damaged(chance, sequence(chance)) for _ in range(count))


# ------------------------------------------------------------------ comparing


def cut_at_each_place(inputs):
    """The pieces of each, cut in two once for each place, with what stands between two."""
    for it in inputs:
        for place in range(1, max(len(it), 2)):
            yield from filter(None, (it[:place], it[place:], BETWEEN))


def hand_on(pieces, to):
    with to, contextlib.suppress(BrokenPipeError, ConnectionResetError):
        for it in pieces:
            for at in range(0, len(it), PIECE):
                to.sendall(it[at : at + PIECE])


def run(command, pieces):
    """How a program ends, and what it writes, where a read brings one of these, or 4096 bytes of it."""
    ours, its = socket.socketpair(socket.AF_UNIX, socket.SOCK_SEQPACKET)
    with subprocess.Popen(command, stdin=its, stdout=subprocess.PIPE) as ran:
        its.close()
        sender = threading.Thread(target=hand_on, args=(pieces, ours))
        sender.start()
        written = ran.stdout.read()
        sender.join()
    return ran.returncode, written


class Pair:
    def __init__(self, program, peer, is_cut):
        self.program, self.peer, self.is_cut = shlex.split(program), shlex.split(peer), is_cut

    def differ(self, inputs):
        """Whether the two end or write otherwise on these, handed over in one run."""
        pieces = list(cut_at_each_place(inputs) if self.is_cut else (it + BETWEEN for it in inputs))
        data = b"".join(pieces)
        peer = subprocess.run(self.peer, input=data, stdout=subprocess.PIPE)
        return run(self.program, pieces if self.is_cut else [data]) != (peer.returncode, peer.stdout)

    def different(self, inputs):
        """The first few of these on which the two differ."""
        if not self.differ(inputs):
            return []
        if len(inputs) == 1:
            return inputs
        half = len(inputs) // 2
        found = self.different(inputs[:half])
        if len(found) < SHOWN:
            found += self.different(inputs[half:])
        return found or [BETWEEN.join(inputs)]

    def made_smaller(self, one):
        """Leaves out what is not needed for a difference."""
        size = len(one)
        while size > 0:
            at = 0
            while at < len(one):
                shorter = one[:at] + one[at + size :]
                if self.differ([shorter]):
                    one = shorter
                else:
                    at += size
            size //= 2
        return one


def chunks(inputs, is_cut):
    chunk, size = [], 0
    for it in inputs:
        chunk.append(it)
        size += (len(it) + len(BETWEEN)) * (max(len(it), 1) if is_cut else 1)
        if size >= CHUNK:
            yield chunk
            chunk, size = [], 0
    if chunk:
        yield chunk


def compare(pair, name, inputs):
    """Compares these, a few runs at a time, and answers whether there was no difference."""
    count = size = 0
    found = []
    with concurrent.futures.ThreadPoolExecutor(os.cpu_count()) as pool:
        todo = chunks(inputs, pair.is_cut)
        while len(found) < SHOWN:
            some = list(itertools.islice(todo, 4 * os.cpu_count()))
            if not some:
                break
            count += sum(map(len, some))
            size += sum(len(it) for chunk in some for it in chunk)
            for different in pool.map(pair.different, some):
                found += different
        shortest = sorted(found, key=len)[:SHOWN]
        smaller = set(pool.map(pair.made_smaller, shortest))
    for it in sorted(smaller, key=lambda it: (len(it), it)):
        print("DIFFERS  %s" % it.hex(" ").upper())
    said = "they differ" if found else "no difference"
    print("%s: %d inputs of %d bytes, %s" % (name, count, size, said), flush=True)
    return not found


def main():
    asked = argparse.ArgumentParser(usage=__doc__)
    asked.add_argument("program")
    asked.add_argument("peer")
    asked.add_argument("--cut", action="store_true")
    asked.add_argument("--length", type=int, default=4)
    asked.add_argument("--streams", type=int, default=20000)
    asked.add_argument("--seed", default="1")
    given = asked.parse_args()
    pair = Pair(given.program, given.peer, given.cut)
    short = "every string of up to %d of %d letters" % (given.length, len(LETTERS))
    well = [
        compare(pair, short, short_strings(given.length)),
        compare(pair, "strings after %d beginnings" % len(BEGINNINGS), continued_strings(1 if given.cut else 2)),
        compare(pair, "random streams", random_streams(given.streams, given.seed)),
    ]
    return 0 if all(well) else 1


if __name__ == "__main__":
    sys.exit(main())
