"""Strings that a stream ends inside of, what it begins as, and what programs say of them."""

import itertools
import re

# A string that is open at the end: OSC, SOS, PM and APC up to BEL, and these and DCS after its header up to ESC, CAN and SUB (ECMA-48,
# 8.3.27 and others; xterm's ctlseqs, "Operating System Commands"; as a reader of logs reads them, in UTF-8).
OPEN_STRING = re.compile(
    rb"\x1b[^\x18\x1a\x1b\x20-\x7e]*(?:[]X^_][^\x07\x18\x1a\x1b]*|P[^\x18\x1a\x1b\x40-\x7e]*[\x40-\x7e][^\x18\x1a\x1b]*)\Z"
)
ENDS = b"\x07\x18\x1a"
FRONT = 4096  # bytes of a sequence, within which its string has begun in each stream of the tests


def begin_of(blocks):
    """At which byte of a stream, which comes in blocks, the string begins that is open at its end, or None."""
    total, begin, front, ends = 0, None, b"", b""
    for block in blocks:
        at = block.rfind(b"\x1b")
        rest = block[max(at, 0) :]
        if at >= 0:
            begin, front, ends = total + at, b"", b""
        if begin is not None:
            room = FRONT - len(front)
            front += rest[:room]
            ends += bytes(it for it in ENDS if it in rest[room:])
        total += len(block)
    return begin if begin is not None and OPEN_STRING.match(front + ends) else None


# What a stream begins with that is no text of a terminal in UTF-8 (Unicode, 23.8; asciicast v2 and v3), and what is said of it.
BEGINNINGS = {
    (b"\xff\xfe", b"\xfe\xff"): "begins as UTF-16 does: iconv -f UTF-16 -t UTF-8 makes UTF-8 of it, which is read",
    tuple(b'{"version":%s%d,' % (blank, number) for blank in (b"", b" ") for number in (2, 3)): (
        "begins as a recording by asciinema does: asciinema cat writes what its terminal got"
    ),
}


def begins(program, name, front):
    """What a program says of an input of this name that begins so."""
    said = [words for marks, words in BEGINNINGS.items() if front.startswith(marks)]
    return "".join("%s: %s: %s\n" % (program, name, it) for it in said).encode()


def said(program, blocks):
    """What a program says of standard input that comes in these blocks."""
    blocks = iter(blocks)
    front = [next(blocks, b"")]
    begin = begin_of(itertools.chain(front, blocks))
    words = "%s: standard input: ends inside a string that begins at byte %s\n" % (program, begin)
    return begins(program, "standard input", front[0]) + (b"" if begin is None else words.encode())
