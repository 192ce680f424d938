"""Terminal output as HTML."""

import ctypes
import re
from functools import partial

from .library import (
    CALL_ROOM, END, END_ROOM, FEED, Converter, Idle, Shared, ShortConverter, converted, exact, function, parts_of,
    pieces_of, short_by, whole_of,
)  # fmt: skip

LONG = 1024  # characters at the beginning that are plain, and sooner taken by themselves
# characters that are their own HTML, and HT and LF: all but the five that are escaped and other controls
PLAIN = re.compile("[\t\n\x20!#-%(-;=?-\ud7ff\ue000-\U0010ffff]*")
STYLINGS = {"both": 0, "light": 1, "dark": 2, "classes": 3}


class State(ctypes.Structure):
    """Where a stream and its HTML stand between two pieces. A new one begins a stream, of the styling "both"."""

    _fields_ = [("length", ctypes.c_size_t), ("others", ctypes.c_ubyte * 3184)]


_init = function("ansi_html_init", None, ctypes.c_void_p, ctypes.c_ubyte)
_feed = function("ansi_html_feed", *FEED)
_end = function("ansi_html_end", *END)


def number_of(styling):
    """The number of the styling of this name."""
    if not isinstance(styling, str):
        raise TypeError("a styling is a name, and not " + type(styling).__name__)
    if styling not in STYLINGS:
        raise ValueError("a styling is one of %s, and not %r" % (", ".join(STYLINGS), styling))
    return STYLINGS[styling]


def _made(kind, number):
    """A Converter or a ShortConverter, in the styling of this number."""
    state = State()
    if number:
        _init(ctypes.addressof(state), number)
    return kind(state, _feed, _end)


def _short(number):
    """What makes the HTML of short wholes at once, in the styling of this number."""
    state = State()
    _init(ctypes.addressof(state), number)
    return short_by(_feed, _end, bytes(state), PLAIN, CALL_ROOM, END_ROOM)


SHORT_CONVERTERS = [Idle(partial(_made, ShortConverter, number)) for number in STYLINGS.values()]
SHORT = [_short(number) for number in STYLINGS.values()]
BOTH, OF_BOTH = "both", SHORT[0]


def html_of(stream, styling="both", *, shown=False, lines=False, urls=False, no_hidden=False):
    """Gives the HTML of a stream that comes in pieces, as a list or a file: as that of `to_html`, with the same words.

    What pieces are, `text_of` says, and so it is with threads. The HTML of a piece is given before the next piece is asked for,
    and what closes it at the end; with `shown`, `lines`, `urls` or `no_hidden` all of it comes at the end.
    """
    if shown is not False or lines or urls or no_hidden:
        from .log import html_by, written_of  # (the library of the screen is loaded where it is wanted)

        return written_of(stream, html_by(styling, shown, lines=lines, urls=urls, no_hidden=no_hidden))
    return Shared(parts_of(_made(Converter, number_of(styling)), pieces_of(stream)))


def to_html(text, styling=BOTH, *, shown=False, lines=False, urls=False, no_hidden=False):
    """The HTML of terminal output: a fragment for a `<pre>`, right after a newline there, as `ansi2html --fragment` writes it.

    shown: True for what a screen showed of it, as `shown` has it; or the size of that screen, (80, 24). lines: each line in an element
    with its number, to link to, which `stylesheet` has rules for. urls: addresses in the text are links too. no_hidden: without the
    text that it hides (SGR 8), as Jenkins writes notes. Of a str it is a str, of bytes, a bytearray or a memoryview bytes."""
    if shown is not False or lines or urls or no_hidden:
        from .log import html_by, written  # (the library of the screen is loaded where it is wanted)

        return written(text, html_by(styling, shown, lines=lines, urls=urls, no_hidden=no_hidden))
    if styling is BOTH:
        short, number = OF_BOTH(text), 0  # (sooner than to look for it)
    else:
        number = number_of(styling)
        short = SHORT[number](text)
    if short is not None:
        return short
    if isinstance(text, str):
        if type(text) is not str:
            text = exact(text)
        # What it begins with that is plain is its own HTML, after which all is as at the start: tested, not proved.
        count = PLAIN.match(text).end()
        if count == len(text):
            return text
        if count > LONG:
            return text[:count] + to_html(text[count:], styling)
    piece, is_str = whole_of(text)
    return converted(piece, is_str, partial(_made, Converter, number), SHORT_CONVERTERS[number])
