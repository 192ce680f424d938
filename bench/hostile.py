#!/usr/bin/env python3
"""Looks for the streams that cost most for their length: instructions and bytes of output for each byte of input.

Usage: bench/hostile.py [--bytes N] [--search ROUNDS] [--seed N] COMMAND ..

    COMMAND         a program and its words, in one argument, such as 'crates/ansi2html/out/ansi2html --classes'
    --bytes N       the bytes of each stream (default 16,384)
    --search ROUNDS first tries the patterns below, and then ROUNDS streams more for each command: those that cost
                    most so far, with a part changed, left out, doubled or put in

A command of `ansi2screen`, or one with `--shown`, gets the patterns and parts for screens too, and one with `--lines` or `--urls` those for
lines and addresses.

Instructions are those of `valgrind --tool=callgrind`, less those of an empty input, as bench/measure.py counts them. A line is a
stream: its instructions and its bytes of output for each byte, and what it is; the last ones are the dearest of each.
"""

import argparse
import os
import random
import shlex
import subprocess
import sys
import tempfile

sys.path.insert(0, os.path.dirname(os.path.abspath(__file__)))

import measure

# The declarations of a long style, and what turns it into another one.
LONG = b"\x1b[1;3;4:3;5;8;9;53;38;2;1;2;3m"
URI = b"https://" + b"&" * 1000
# What begins a stream, and what is repeated to its end.
PATTERNS = {
    "a link of references, over changes of style": (b"\x1b]8;;" + URI + b"\x1b\\", b"\x1b[1mx\x1b[my"),
    "a link of quotes for each letter": (b"", b"\x1b]8;;https://" + b'"' * 1000 + b"\x07x\x1b]8\x07y"),
    "a short link for each letter": (b"", b"\x1b]8;;http://\x07x\x1b]8;;mailto:\x07y"),
    "a link that ends behind each letter": (b"", b"\x1b]8;;mailto:\x07x\x1b]8\x07y"),
    "a link of sixteen parts": (b"", b"\x1b]8;;https://" + b";" * 12 + b"\x07x\x1b]8;;https://;" + b";" * 13 + b"\x07y"),
    "a long style, reversed in turns": (LONG, b"\x1b[7mx\x1b[27my"),
    "a long style, plain in turns": (b"", LONG + b"x\x1b[my"),
    "plain and bold in turns": (b"", b"\x1b[1mx\x1b[my"),
    "named colours": (b"", b"\x1b[31mx\x1b[32my"),
    "red, green and blue": (b"", b"\x1b[38;2;1;2;3mx\x1b[38;2;250;251;252my"),
    "red, green and blue, dim on a ground": (b"\x1b[2m", b"\x1b[38;2;9;8;7;48;2;1;2;3mx\x1b[48;2;250;251;252my"),
    "quotes": (b"", b'"'),
    "carriage returns": (b"", b"\r"),
    "the byte FF": (b"", b"\xff"),
    "characters that are broken": (b"", b"\xf0\x9f\x98\xc2"),
    "ESC": (b"", b"\x1b"),
    "CAN in a control sequence": (b"", b"\x1b[\x18"),
    "controls in a control sequence": (b"", b"\x1b[\n1\t;\r2m"),
    "controls": (b"", b"\x00\x07\x0b"),
    "parameters": (b"", b"\x1b[1:2;3:4;5:6;7;8;9;10m"),
    "empty parameters": (b"", b"\x1b[;;;;;;;;m"),
    "empty commands": (b"", b"\x1b]\x07"),
    "commands of parts": (b"", b"\x1b]" + b";" * 20 + b"\x07"),
    "a command with no end": (b"\x1b]8;;", b"a"),
    "device control strings": (b"", b"\x1bPq\x1b\\"),
    "escape sequences": (b"", b"\x1b(B\x1b7"),
}
# The same for --lines and --urls.
LONG_LINK = b"\x1b]8;;https://" + b'"' * 992 + b"\x07"
LINE_PATTERNS = {
    "line feeds": (b"", b"\n"),
    "letters, each in a line": (b"", b"x\n"),
    "a long link over line feeds": (LONG_LINK, b"\n"),
    "a long link over letters, each in a line": (LONG_LINK, b"x\n"),
    "a long style and a link of 100 bytes over line feeds": (LONG + b"\x1b]8;;http://" + b"a" * 93 + b"\x07", b"\n"),
    "a long style over letters, each in a line": (LONG, b"x\n"),
    "a long style over line feeds": (LONG, b"\n"),
    "a long style and a short link over line feeds": (LONG + b"\x1b]8;;mailto:\x07", b"\n"),
    "addresses": (b"", b"http://a "),
    "an address in each line": (b"", b"http://a\n"),
    "addresses that begin in one another": (b"", b"mailto:"),
    "an address with no end": (b"http://", b"a"),
    "addresses that are too long": (b"", b"http://" + b"a" * 1100 + b" "),
    "brackets in an address": (b"http://a", b"()"),
    "brackets that close none": (b"", b"http://a" + b")" * 1000 + b" "),
    "marks at the end of an address": (b"", b"http://a" + b"." * 1000 + b" "),
    "colours in addresses": (b"", b"http://a\x1b[31mb\x1b[m"),
}
# And for screens.
SCREEN_PATTERNS = {
    "a character repeated over its row": (b"", b"\rx\x1b[65535b"),
    "a wide character repeated": (b"", "\r漢\x1b[65535b".encode()),
    "a character repeated in insert mode": (b"\x1b[4h", b"\rx\x1b[65535b"),
    "tabs without stops": (b"\x1b[3g", b"\r\t"),
    "tabs forward and back": (b"", b"\x1b[65535I\x1b[65535Z"),
    "marks": (b"a", "\u0301".encode()),
    "marks on a character": (b"", "a\u0301\u0302".encode()),
    "line feeds": (b"", b"\n"),
    "letters, each in a line": (b"", b"x\n"),
    "scrolls of all lines": (b"", b"\x1b[65535S"),
    "scrolls down": (b"", b"\x1b[65535T"),
    "reverse index at the top": (b"", b"\x1bM"),
    "a screen full of E, and reverse index": (b"", b"\x1b#8\x1bM"),
    "lines inserted": (b"\x1b[H", b"\x1b[65535L"),
    "characters inserted": (b"", b"\x1b[65535@"),
    "erased screens": (b"", b"\x1b[2J"),
    "erased screens, in colours": (b"", b"\x1b[41m\x1b[2J\x1b[42m\x1b[2J"),
    "resets": (b"", b"\x1bc"),
    "the alternate screen": (b"", b"\x1b[?1049h\x1b[?1049l"),
    "links in a screen": (b"", b"\x1b]8;;http://a\x07x"),
    "long links in a screen": (b"", b"\x1b]8;;https://" + b'"' * 1000 + b"\x07x\n"),
    "long links on a line feed each": (b"\x1b]8;;https://" + b'"' * 1000 + b"\x07", b"x\n"),
    "moves to the corners": (b"", b"\x1b[1;1Hx\x1b[999;999Hy"),
    "a quote repeated over each row": (b"", b'"\x1b[999b\n'),
    "a quote in a long style and link repeated over each row": (LONG + LONG_LINK, b'"\x1b[999b\n'),
    "a character of four bytes repeated over each row": (b"", "\U00010000\x1b[999b\n".encode()),
    "a soft hyphen repeated over each row": (b"", "\xad\x1b[999b\n".encode()),
    "a letter at the end of each row": (b"", b"\x1b[999Gx\n"),
}
# What the search puts in.
PARTS = [
    b"x", b"&", b'"', b"\r", b"\n", b"\t", b"\xff", b"\xf0\x9f", b"\xc2\x80", b"\x1b", b"\x18", b"\x07", b";", b":", b"m", b"0", b"\x9c",
    b"\x1b[m", b"\x1b[7m", b"\x1b[27m", b"\x1b[1;4:3;9;53m", b"\x1b[2;38;2;1;2;3m", b"\x1b[48;5;200m", b"\x1b[31m", b"\x1b]8;;\x07",
    b"\x1b]8\x07", b"\x1b]8;;mailto:&\x07", b"\x1b]8;;https://" + b'"' * 100 + b"\x07", b"\x1b]0;a\x07", b"\x1bPq", b"\x1b\\", b"\x1b(B", LONG,
]
LINE_PARTS = [b"http://", b"https://a.b/", b"mailto:", b"x\n", b" ", b"(", b")", b".", b"+", LONG_LINK]
# And for screens.
SCREEN_PARTS = [
    b"\x1b[999b", b"\x1b[999G", b"\x1b[1K", b"\x1b[J", "\U00010000".encode(), "\xad".encode(),
    b"\r\n", b"\x1b[65535b", b"\x1b[65535I", b"\x1b[65535Z", b"\x1b[4h", b"\x1b[65535@", b"\x1b[65535P", b"\x1b[65535L", b"\x1b[65535M",
    b"\x1b[65535S", b"\x1b[65535T", b"\x1bM", b"\x1b[H", b"\x1b[9;9H", b"\x1b[2J", b"\x1b[K", b"\x1b[3g", b"\x1bH", b"\x1b#8", b"\x1bc",
    b"\x1b[?1049h", b"\x1b[?1049l", b"\x1b[2;9r", b"\x1b[?6h", b"\x1b7", b"\x1b8", "漢".encode(), "\u0301".encode(), "😀".encode(),
]


def is_of_a_screen(command):
    return "ansi2screen" in command[0] or any(word.startswith("--shown") for word in command)


def is_of_lines(command):
    return not {"--lines", "--urls"}.isdisjoint(command)


def stream(pattern, size):
    """The beginning of a pattern, and what it repeats, up to so many bytes."""
    begin, unit = pattern
    return (begin + unit * (size // len(unit) + 1))[:size]


def cost(command, data, empty):
    """The instructions and the bytes of output for each byte."""
    with tempfile.NamedTemporaryFile() as file:
        file.write(data)
        file.flush()
        work = measure.instructions(command, file.name) - empty
        file.seek(0)
        output = len(subprocess.run(command, stdin=file, stdout=subprocess.PIPE, check=True).stdout)
    return work / len(data), output / len(data)


def changed(pick, pattern, parts):
    """A pattern with a part changed, left out, doubled or put in."""
    begin, unit = (bytearray(it) for it in pattern)
    for _ in range(pick.randint(1, 3)):
        at = unit if pick.random() < 0.8 else begin
        place, way = pick.randint(0, len(at)), pick.randrange(4)
        if way == 0:
            at[place:place] = pick.choice(parts)
        elif way == 1:
            del at[place : place + pick.randint(1, 8)]
        elif way == 2:
            at[place:place] = at[place : place + pick.randint(1, 16)]
        else:
            at[place : place + pick.randint(1, 4)] = pick.choice(parts)
    return bytes(begin)[:4096], bytes(unit)[:4096] or b"x"


def searched(command, rounds, size, pick):
    """Each pattern with what it costs: those above, and those that the search makes of the dearest ones."""
    empty = measure.instructions(command, os.devnull)
    found = []
    patterns, parts = PATTERNS, PARTS
    if is_of_lines(command):
        patterns, parts = patterns | LINE_PATTERNS, parts + LINE_PARTS
    if is_of_a_screen(command):
        patterns, parts = patterns | SCREEN_PATTERNS, parts + SCREEN_PARTS
    for name, pattern in patterns.items():
        found.append((*cost(command, stream(pattern, size), empty), name, pattern))
        yield found[-1]
    for _ in range(rounds):
        by = pick.randrange(2)
        best = sorted(found, key=lambda it: it[by])[-6:]
        pattern = changed(pick, pick.choice(best)[3], parts)
        found.append((*cost(command, stream(pattern, size), empty), "found", pattern))
        if any(found[-1][at] > best[-1][at] for at in range(2)):
            yield found[-1]
    for by, what in enumerate(["most work", "most output"]):
        dearest = max(found, key=lambda it: it[by])
        yield (*dearest[:2], what, dearest[3])


def main():
    parser = argparse.ArgumentParser(description=__doc__.split("\n")[0])
    parser.add_argument("--bytes", type=int, default=1 << 14)
    parser.add_argument("--search", type=int, default=0, metavar="ROUNDS")
    parser.add_argument("--seed", type=int, default=54)
    parser.add_argument("command", nargs="+")
    words = parser.parse_args()
    for said in words.command:
        print(said)
        pick = random.Random(words.seed)
        for work, output, name, (begin, unit) in searched(shlex.split(said), words.search, words.bytes, pick):
            is_named = any(name in it for it in (PATTERNS, LINE_PATTERNS, SCREEN_PATTERNS))
            print("%9.1f %8.2f  %s" % (work, output, name if is_named else "%s: %r, %r" % (name, begin[-60:], unit[:120])), flush=True)


if __name__ == "__main__":
    main()
