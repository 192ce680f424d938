"""What tests/library_python tries of text with `lf` from Python: worked rows, streams beside ansi2text --lf, each cut of short ones, kinds of
texts, and wholes one after another."""

import itertools
import random

from lib.library_shared import *
from lib.log_rows import RETURN_ROWS

SIZES = [1, 2, 3, 16, 17, 64, 4095, 4096, 65536, 65537]  # of the pieces
# what short streams are made of: carriage returns and line feeds with and without what stands between them and leaves nothing
PARTS = [b"\r", b"\n", b"a", b"\x1b[K", b"\xe2\x82", b"\x7f"]
# a recording by `script`, and its lines that end with dots, as `grep '\.\.\.$'` finds them
SCRIPT = b"Script started\r\n\x1b[?2004h$ make\r\n\x1b[32mone...\x1b[0m\r\ntwo\r\nthree...\r\n"
DOTS = [b"one...", b"three..."]


def lines_text(stream):
    """What ansi2text --lf writes."""
    return output_of("ansi2text", stream, "--lf")


def in_pieces(ansi, cut):
    return b"".join(ansi.text_of(cut, lf=True))


def line_cases(ansi):
    yield from worked_cases(ansi)
    yield from cut_cases(ansi)
    yield from stream_cases(ansi)
    yield from kind_cases(ansi)


def worked_cases(ansi):
    for name, stream, wanted in RETURN_ROWS:
        yield "lf: %s" % name, first_difference(ansi.strip(stream, lf=True), wanted)
        for size in (1, 2, 3, 16):
            yield "lf: %s, in pieces of %d" % (name, size), first_difference(in_pieces(ansi, pieces(stream, size)), wanted)
        yield "lf: %s, of a str" % name, first_difference(ansi.strip(stream.decode(), lf=True), wanted.decode())
    for name, found in [("at once", ansi.strip(SCRIPT, lf=True)), ("in pieces", in_pieces(ansi, pieces(SCRIPT, 5)))]:
        ending = re.findall(rb"(?m)^.*\.\.\.$", found)
        yield "lf: a recording by script, %s" % name, None if ending == DOTS and b"\r" not in found else "it is %r" % found


def cut_cases(ansi):
    """All streams of four such parts, at once and in two pieces, cut at each place: as is told of their text."""
    wrong = None
    for parts in itertools.product(PARTS, repeat=4):
        stream = b"".join(parts)
        wanted = ansi.strip(stream).replace(b"\r\n", b"\n")
        cuts = [[stream[:at], stream[at:]] for at in range(len(stream) + 1)] + [[bytes([it]) for it in stream]]
        found = {ansi.strip(stream, lf=True), *(in_pieces(ansi, cut) for cut in cuts)}
        wrong = wrong or (None if found == {wanted} else "%r is %r" % (stream, found))
    yield "lf: streams of four parts, at each cut", wrong
    pick = random.Random(23)
    stream = b"".join(pick.choice(PARTS) for _ in range(400))
    wanted, wrong = lines_text(stream), None
    for at in range(len(stream) + 1):
        if in_pieces(ansi, [stream[:at], stream[at:]]) != wanted:
            wrong = wrong or "cut at %d" % at
    yield "lf: a stream beside ansi2text --lf, at each cut", wrong


def stream_cases(ansi):
    pick = random.Random(29)
    generated = b"".join(pick.choice(PARTS) for _ in range(20_000))
    kinds = [*streams(), ("generated", generated), ("long lines", 3 * (70_000 * b"x" + b"\r\n") + b"\r")]
    yield from beside_cases(ansi, "lf", kinds, SIZES, pick, lines_text)


def kind_cases(ansi):
    yield from option_cases(ansi, "lf", b"\x1b[1mA\r\nB\r", 6, b"A\nB\r")
    yield from piece_cases(ansi, "lf", [b"one\r", b"\ntwo\r", b"three"], b"one", [b"\r"])
    found = ansi.strip("a\r\nb"), ansi.strip(b"a\r\n", lf=False), b"".join(ansi.text_of([b"a\r", b"\n"]))
    yield "lf: only where it is asked for", None if found == ("a\r\nb", b"a\r\n", b"a\r\n") else "they are %r" % (found,)
    found = [ansi.strip(it, lf=True) for it in ("", "a\r", "\n", "é\r\n", "\r\r\n")]
    yield "lf: of short texts, each by itself", None if found == ["", "a\r", "\n", "é\n", "\r\n"] else "they are %r" % (found,)
    found = ansi.strip("a\r\n\x07<\r", safe=True, lf=True), b"".join(ansi.text_of([b"a\r", b"\n\x07"], safe=True, lf=True))
    yield "lf: with safe text it changes nothing", None if found == ("a\n<U+0007><<U+000D>", b"a\n<U+0007>") else "they are %r" % (found,)
