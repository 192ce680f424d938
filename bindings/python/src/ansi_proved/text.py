"""What is left of terminal output that is stripped of its escapes."""

import ctypes
import re

from .library import (
    END, FEED, FEW, TOO_LITTLE, Counts, Idle, Room, Shared, address_of, decoded, exact, function, parts_of, pieces_of,
    short_by, utf8, whole_of, whole_text,
)  # fmt: skip
from .lines import Lines
from .safe import safe as safe_text, safe_of

MOST = 64 << 10  # bytes that one call is given at most
END_ROOM = 3  # bytes that an end writes at most
LOOKED_THROUGH = 256  # characters of a str that is looked through sooner than it is stripped
# characters that drive no terminal, and controls that are left
CLEAN = re.compile("[\t\n\r\x20-\x7e\xa0-\ud7ff\ue000-\U0010ffff]*")


class State(ctypes.Structure):
    """Where a stream stands between two pieces. A new one begins a stream."""

    _fields_ = [("length", ctypes.c_size_t), ("pending", ctypes.c_ubyte * 1042)]


_feed = function("ansi_strip_feed", *FEED)
_end = function("ansi_strip_end", *END)


def room_of(count):
    """The bytes of room in which so many are taken at once."""
    return 3 * count + 3


class Stripper:
    """A stream, which goes on with each piece."""

    def __init__(self):
        self._state, self._counts, self._room = State(), Counts(), None

    def texts(self, piece, made=bytes):
        """The text of the bytes that come next, in parts that are made of memory, each UTF-8 by itself."""
        size = room_of(min(len(piece), MOST))
        if self._room is None or self._room.size < size:
            self._room = Room(size)
        state, room, counts = ctypes.addressof(self._state), self._room, self._counts
        taken, written = counts.places()
        count = len(piece)
        start = address_of(piece) if count > MOST else piece  # (a short one is given as it is, which is sooner)
        for at in range(0, count, MOST):
            most = min(MOST, count - at)
            _feed(state, start + at if at else start, most, room.address, room.size, taken, written)
            if counts.taken != most:
                raise RuntimeError(TOO_LITTLE)
            if counts.written:
                yield made(room.view[: counts.written])

    def ends(self, made=bytes):
        """What comes at the end, in no part or one: U+FFFD where a character is begun."""
        if not self._state.length:
            return  # (nothing is begun: pending_of of stream_state)
        room, (_, written) = self._room, self._counts.places()
        _end(ctypes.addressof(self._state), room.address, room.size, written)
        if self._counts.written:
            yield made(room.view[: self._counts.written])


def text_of(stream, *, safe=False, lf=False, no_hidden=False):
    """Gives the text of a stream that comes in pieces, as a list or a file: as `strip` leaves it, with the same words.

        with open("log", "rb") as log:
            for part in ansi_proved.text_of(log):
                sys.stdout.buffer.write(part)

    A piece is bytes, a bytearray or a memoryview, and leads to bytes, each UTF-8 by itself; or a str, and leads to str. A file
    is read 64 KiB at a time: one of bytes as it has some, one of text (`open("log")`) once it has so many. The text of a piece
    is given before the next piece is asked for, but for a carriage return that comes last, where it is safe or with `lf`, and
    where it is safe for a `<`, a `<U` or a joiner; with `no_hidden` all of it comes at the end. Threads may share what this gives:
    each part goes to one of them.
    """
    if no_hidden:
        from .log import unhidden, written_of  # (the library of the screen is loaded where it is wanted)

        return written_of(stream, unhidden(safe), lf and not safe)
    return safe_of(stream) if safe else Shared(parts_of(_stripper(lf), pieces_of(stream)))


def _stripper(lf):
    """The beginning of a stream, whose carriage returns before line feeds are to go or to stay."""
    return Lines(Stripper()) if lf else Stripper()


class ShortStripper:
    """Strips wholes of FEW bytes at most, each a stream of its own."""

    def __init__(self):
        self._state, self._counts, self._room = State(), Counts(), Room(room_of(FEW) + END_ROOM)
        self._state_at = ctypes.addressof(self._state)
        self._rest = self._room.address, self._room.size, *self._counts.places()

    def text(self, piece):
        """The text of a whole, as memory that the next one is written to."""
        self._state.length = 0  # (so a stream begins, whatever stands behind: pending_of of stream_state)
        room, counts = self._room, self._counts
        _feed(self._state_at, piece, len(piece), *self._rest)
        count = counts.written
        if counts.taken != len(piece):
            raise RuntimeError(TOO_LITTLE)
        if self._state.length:  # (else nothing is begun)
            _end(self._state_at, room.address + count, room.size - count, self._rest[3])
            count += counts.written
        return room.view[:count]


SHORT_STRIPPERS = Idle(ShortStripper)
SHORT = short_by(_feed, _end, bytes(State()), CLEAN, room_of(FEW), END_ROOM)


def is_clean(text):
    """Whether a str is told to be clean sooner than it is stripped: where it is short, or little of it is ASCII, so
    that to encode and to decode it takes long, and all of it is left."""
    if len(text) <= LOOKED_THROUGH:
        return "\x1b" not in text and CLEAN.match(text).end() == len(text)
    if text.isascii():
        return False
    begin = utf8(text[:4096])
    return 2 * len(begin) > 3 * min(len(text), 4096) and CLEAN.match(text).end() == len(text)


def strip(text, *, safe=False, lf=False, no_hidden=False):
    """The text of terminal output: of a str a str, of bytes, a bytearray or a memoryview bytes.

    It drives no terminal: DEL and U+0080 to U+009F, which some terminals take for controls, are left out too. No other
    byte vanishes: what is broken, and what belongs to no character, is U+FFFD, as is each surrogate of a str. Where it is
    to be safe, it hides nothing, as that of `ansi2text --safe`: what shows nothing, turns the order of text round or is a
    control is written visibly, as `<U+202E>`, and text that a stream hides (SGR 8), or that has the colour of its ground in
    xterm's palette, stands between `<U+hidden>` and `<U+shown>`. With `lf` each carriage return right before a line feed goes, as a recording by script(1) has it at the end
    of each line; where it is to be safe it goes in any case. With `no_hidden` text that the stream hides (SGR 8) is left out, as
    Jenkins writes notes.
    """
    if no_hidden:
        from .log import unhidden, written  # (the library of the screen is loaded where it is wanted)

        return written(text, unhidden(safe), lf and not safe)
    if safe:
        return safe_text(text)
    short = None if lf else SHORT(text)
    if short is not None:
        return short
    if isinstance(text, str):
        if type(text) is not str:
            text = exact(text)
        if is_clean(text) and not (lf and "\r\n" in text):
            return text  # (clean text is left as it is: laws::inert_clean_text and laws::line_feeds of ansi_strip)
    piece, is_str = whole_of(text)
    if lf or len(piece) > FEW:
        return whole_text(_stripper(lf), piece, is_str)
    stripper = SHORT_STRIPPERS.taken()
    text = (decoded if is_str else bytes)(stripper.text(piece))
    SHORT_STRIPPERS.append(stripper)
    return text
