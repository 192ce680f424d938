"""What tests/library_python tries of safe text from Python: worked rows, streams beside ansi2text --safe, pieces of each size, kinds of
texts, wholes one after another, and states."""

import ctypes
import random

from lib.library_shared import *
from lib.safe_rows import HIDDEN_ROWS, SAFE_ROWS

SIZES = [1, 2, 3, 7, 64, 1000, 4095, 4096, 65537]  # of the pieces
# what generated streams are made of: characters that wait, that are told apart by them, and that are written out
PARTS = ["\r", "\n", "<", "U", "+", "a", "\u200b", "\u200c", "\u200d", "\ufe0e", "\ufe0f", "\u202e", "\x07", "\U0001f468", "\u094d"]
PARTS = [it.encode() for it in [*PARTS, "\U000e0041"]] + [b"\x1b[1m", b"\x1b[8m", b"\x1b[28m", b"\x1b]0;t\x07", b"\xf0\x9f", b"\xe2\x82", b"\x84"]


def in_pieces(ansi, stream, size):
    return b"".join(ansi.text_of(pieces(stream, size), safe=True))


def safe_cases(ansi):
    yield from row_cases(ansi)
    yield from stream_cases(ansi)
    yield from whole_safe_cases(ansi)
    yield from safe_kind_cases(ansi)
    yield from safe_state_cases()


def row_cases(ansi):
    """Rows worked by hand: at once, in pieces that part each character, and of a str, short and behind much."""
    for name, stream, wanted in SAFE_ROWS + HIDDEN_ROWS:
        yield "safe: %s" % name, first_difference(ansi.strip(stream, safe=True), wanted)
        for size in (1, 2, 3):
            yield "safe: %s, in pieces of %d" % (name, size), first_difference(in_pieces(ansi, stream, size), wanted)
        try:
            text = stream.decode()
        except UnicodeDecodeError:
            continue
        for front in ("", 2000 * "a", 100_000 * "\u20ac"):
            front, back = front and front + "\n", wanted.decode()
            why = first_difference(ansi.strip(front + text, safe=True), front + back)
            yield "safe: %s, a str behind %d characters" % (name, len(front)), why


def stream_cases(ansi):
    """Streams in pieces of each size, and cut at random, beside ansi2text --safe; each part is UTF-8 by itself."""
    pick = random.Random(11)
    generated = b"".join(pick.choice(PARTS) for _ in range(20_000))
    yield from beside_cases(ansi, "safe", [*streams(), ("generated", generated)], SIZES, pick, safe_of)
    for length in range(1, 6):  # (short streams of such parts are all kinds of cuts)
        wrong = None
        for _ in range(400):
            stream = b"".join(pick.choice(PARTS) for _ in range(length))
            whole = ansi.strip(stream, safe=True)
            found = {in_pieces(ansi, stream, size) for size in (1, 2, 3)}
            wrong = wrong or (None if found == {whole} else "%r" % stream)
        yield "safe: generated, of %d parts, however they are cut" % length, wrong and "it is another text of " + wrong


def whole_safe_cases(ansi):
    """Wholes one after another: each is a stream of its own, whatever the one before has left open or waiting."""
    found = []
    for first in (b"\x1b[31", b"\x1b]0;title", b"\xe2\x82", b"\r", b"<", b"<U", 5000 * b"x" + b"<", "\U0001f468\u200d".encode()):
        ansi.strip(first, safe=True)
        found += [ansi.strip(b"\nU+\x1b[m", safe=True), ansi.strip("\nU+\x1b[m", safe=True).encode()]
    wrong = next((it for it in found if it != b"\nU+"), None)
    yield "safe: of a whole behind one that is left open", wrong and "it is %r" % wrong
    for length in range(1016, 1032):
        stream = b"\x1b[1mA" + (length - 6) * b"b" + b"\r"
        wanted = b"A" + (length - 6) * b"b" + b"<U+000D>"
        yield "safe: a whole of %d bytes" % len(stream), first_difference(ansi.strip(stream, safe=True), wanted)
    for count in (1000, 1024, 3000, 100_000):
        why = first_difference(ansi.strip(count * b"\x07", safe=True), count * b"<U+0007>")
        yield "safe: %d characters that are written out" % count, why
    wrong = None
    for at in [*range(0x3000), *range(0xD700, 0xE100), *range(0x3000, 0x110000, 97)]:
        text = "a<%c" % at
        given = utf8(text)
        if wrong is None and ansi.strip(text, safe=True) != ansi.strip(given, safe=True).decode():
            wrong = "of %r it is %r" % (text, ansi.strip(text, safe=True))
        text = "ab\n%c" % at
        given = utf8(text)
        if wrong is None and ansi.strip(text, safe=True) != ansi.strip(given, safe=True).decode():
            wrong = "of %r it is %r" % (text, ansi.strip(text, safe=True))
    yield "safe: of a str with any character what it is of its UTF-8", wrong


def safe_kind_cases(ansi):
    yield from option_cases(ansi, "safe", b"\x1b[1mA\0B\r", 3, b"A<U+0000>B<U+000D>")
    yield from piece_cases(ansi, "safe", [b"one<", b"U", b"two"], b"one", [b"<"])
    found = ansi.strip(b"a\x07b"), ansi.strip("a\x07b", safe=False), b"".join(ansi.text_of([b"a\x07"], safe=False))
    yield "safe: only where it is asked for", None if found == (b"ab", "ab", b"a") else "they are %r" % (found,)


def safe_state_cases():
    """States, by what the package calls."""
    from ansi_proved.library import LIBRARY
    from ansi_proved.safe import State

    def feed(state, piece, size=256):
        room, taken, written = ctypes.create_string_buffer(size), ctypes.c_size_t(), ctypes.c_size_t()
        pointers = ctypes.byref(taken), ctypes.byref(written)
        is_fed = LIBRARY.ansi_safe_feed(ctypes.byref(state), piece, len(piece), room, size, *pointers)
        return is_fed, taken.value, room.raw[: written.value]

    state = State()
    feed(state, b"a<U")
    before = bytes(state)
    answer = feed(state, b"A", 59), bytes(state) == before
    yield "safe: a room that is too small is refused, and the state stays", None if answer == ((False, 0, b""), True) else "it answered %r" % (answer,)
    copy = State.from_buffer_copy(state)
    answer = feed(copy, b"+A"), feed(state, b"+A")
    yield "safe: a copy of a state goes on as the state does", None if answer == ((True, 2, b"<U+003C>U+A"),) * 2 else "they answered %r" % (answer,)
    LIBRARY.ansi_safe_init(ctypes.byref(state))
    answer = feed(state, b"A")
    yield "safe: after ansi_safe_init a stream begins", None if answer == (True, 1, b"A") else "it answered %r" % (answer,)
    state = State.from_buffer_copy(random.Random(3).randbytes(ctypes.sizeof(State)))
    is_fed, taken, text = feed(state, b"\x18A")
    is_well = is_fed and taken == 2 and text.endswith(b"A")
    yield "safe: any bytes are a state, and after 18 a stream begins", None if is_well else "it answered %r" % text
