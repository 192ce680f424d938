"""Terminal output as text that hides nothing."""

import ctypes
import re
from functools import partial

from .library import (
    CALL_ROOM, END, END_ROOM, FEED, Converter, Idle, Shared, ShortConverter, converted, exact, function, parts_of,
    pieces_of, short_by, whole_of,
)  # fmt: skip

PLAIN = re.compile("[\t\n\x20-;=-~]*")  # characters that are left wherever they stand


class State(ctypes.Structure):
    """Where a stream and its safe text stand between two pieces. A new one begins a stream."""

    _fields_ = [("length", ctypes.c_size_t), ("others", ctypes.c_ubyte * 1072)]


_feed = function("ansi_safe_feed", *FEED)
_end = function("ansi_safe_end", *END)


def _made(kind):
    """A Converter or a ShortConverter."""
    return kind(State(), _feed, _end)


SHORT_CONVERTERS = Idle(partial(_made, ShortConverter))
SHORT = short_by(_feed, _end, bytes(State()), PLAIN, CALL_ROOM, END_ROOM)


def safe_of(stream):
    """Gives the safe text of a stream that comes in pieces."""
    return Shared(parts_of(_made(Converter), pieces_of(stream)))


def safe(text):
    """The safe text of terminal output, which hides nothing: of a str a str, of bytes, a bytearray or a memoryview bytes.

    What shows nothing, turns the order of text round or is a control is written visibly, as `<U+202E>`, and text that a stream
    hides (SGR 8), or that has the colour of its ground in xterm's palette, stands between `<U+hidden>` and `<U+shown>`. It has no carriage return before a line feed. It is that of
    `strip(text, safe=True)`.
    """
    short = SHORT(text)
    if short is not None:
        return short
    if isinstance(text, str):
        if type(text) is not str:
            text = exact(text)
        if PLAIN.match(text).end() == len(text):
            return text  # (laws::safe_stays of safe_text)
    piece, is_str = whole_of(text)
    return converted(piece, is_str, partial(_made, Converter), SHORT_CONVERTERS)
