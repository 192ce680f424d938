"""What a screen showed of a log, and logs that are written with more than text or HTML alone: without hidden text, in lines, with
addresses as links."""

import ctypes

from .html import number_of
from .library import Room, Shared, address_of, bytes_of, decoded, function, pieces_of, whole_of, whole_text
from .lines import Lines
from .screen import LIBRARY, check_size

TEXT, SAFE, HTML = range(3)
PIECE = 64 << 10  # bytes that are given at once
NO_MEMORY = "there is no memory for what a screen showed"
_AT, _BOOL, _SIZE = ctypes.c_void_p, ctypes.c_bool, ctypes.c_size_t


class Options(ctypes.Structure):
    """How a log is written, and by which screen: of 0 columns and 0 rows, that of the recording."""

    _fields_ = [("columns", _SIZE), ("rows", _SIZE), ("form", ctypes.c_ubyte), ("styling", ctypes.c_ubyte)]
    _fields_ += [(name, ctypes.c_ubyte) for name in ("lines", "urls", "no_hidden", "no_screen")] + [("reserved", ctypes.c_ubyte * 2)]


def _call(name, answer, *kinds):
    return function("ansi_shown_" + name, answer, _AT, *kinds, library=LIBRARY)


_open = _call("open", _BOOL, _AT)
_close = _call("close", None)
_feed = _call("feed", _BOOL, _AT, _SIZE)
_end = _call("end", _BOOL)
_text = _call("text", _BOOL, _AT, _SIZE, _AT)


class Log:
    """A log that comes in pieces, of bytes, and in the end what the screen showed of it."""

    def __init__(self, options):
        self._held = _AT()
        self._at = ctypes.addressof(self._held)
        if not _open(self._at, ctypes.addressof(options)):
            raise MemoryError(NO_MEMORY)

    def feed(self, piece):
        start, count = address_of(piece), len(piece)
        for at in range(0, count, PIECE):  # (the library copies the first piece)
            if not _feed(self._at, start + at, min(PIECE, count - at)):
                raise MemoryError(NO_MEMORY)

    def end(self, made=bytes):
        """What is written of all that came, made of memory."""
        if not _end(self._at):
            raise MemoryError(NO_MEMORY)
        length, room = _SIZE(), Room(1)
        _text(self._at, room.address, 0, ctypes.addressof(length))
        if length.value > room.size:
            room = Room(length.value)
        _text(self._at, room.address, length.value, ctypes.addressof(length))
        return made(room.view[: length.value])

    def __enter__(self):
        return self

    def __exit__(self, *error):
        _close(self._at)


def options_of(columns, rows, form, styling=0, **more):
    """The options for a screen of this size; where neither number is given, of that of the recording."""
    if columns is None and rows is None:
        columns = rows = 0
    else:
        check_size(columns, rows)
    return Options(columns, rows, form, styling, **{name: 1 for name, is_asked in more.items() if is_asked})


class Stripped:
    """A text that is stripped already, whose lines Lines takes."""

    def texts(self, piece):
        yield piece

    def ends(self):
        return iter(())


def _written(pieces, options, lf=False):
    """What is written of pieces, each with whether it is a str: a str where the last one is one, or where there is none, and bytes else."""
    is_str = True
    with Log(options) as log:
        for piece, is_str in pieces:
            log.feed(piece)
        found = log.end(decoded if is_str and not lf else bytes)
    return whole_text(Lines(Stripped()), found, is_str) if lf else found


def _pieces(stream):
    """The pieces of a stream, each with whether it is a str."""
    return ((bytes_of(piece), isinstance(piece, str)) for piece in pieces_of(stream))


def _at_the_end(*given):
    found = _written(*given)
    if found:
        yield found


def written(text, options, lf=False):
    """What is written of a log: of a str a str, of bytes, a bytearray or a memoryview bytes. With lf it has no carriage return right
    before a line feed."""
    return _written([whole_of(text)], options, lf)


def written_of(stream, options, lf=False):
    """Gives the same of a log that comes in pieces, at its end: in one part, or in none where it is empty."""
    return Shared(_at_the_end(_pieces(stream), options, lf))


def unhidden(safe):
    """The options for text without what a log hides, as `ansi2text --no-hidden` writes it: no screen shows it."""
    return options_of(None, None, SAFE if safe else TEXT, no_hidden=True, no_screen=True)


def html_by(styling, size, **more):
    """The options for HTML as `ansi2html --fragment` writes it, in lines, with addresses as links, without hidden text; where size is not
    False, of what a screen showed: of this size, or of that of the recording, where it is True."""
    if not isinstance(size, bool) and not (isinstance(size, (tuple, list)) and len(size) == 2):
        raise TypeError("shown is True, or the columns and rows of a screen, and not %r" % (size,))
    columns, rows = (None, None) if isinstance(size, bool) else size
    return options_of(columns, rows, HTML, number_of(styling), no_screen=size is False, **more)


def shown(text, columns=None, rows=None, *, safe=False, no_hidden=False):
    r"""The text that a screen shows of a log, as `ansi2text --shown` writes it: what scrolled off at its top, or was erased with
    all of it, and what still stands there at the end.

        ansi_proved.shown(" 10%\r 50%\r100%\n")  # '100%\n'

    columns, rows: its size; with neither that which the first line of the log says, as script(1) writes it, and where it says none,
    1,000 columns and 100 rows. safe: text that hides nothing, as `safe` has it. no_hidden: without the text that the log hides
    (SGR 8). A row that wrapped and the next one are one line. What is written over is lost, and so is what the alternate screen
    showed, unless it still shows at the end: then the main screen comes first. Of a str it is a str, of bytes, a bytearray or a
    memoryview bytes.
    """
    return written(text, options_of(columns, rows, SAFE if safe else TEXT, no_hidden=no_hidden))


def shown_of(stream, columns=None, rows=None, *, safe=False, no_hidden=False):
    """The same of a log that comes in pieces, as a list or a file: what pieces are, `text_of` says."""
    return _written(_pieces(stream), options_of(columns, rows, SAFE if safe else TEXT, no_hidden=no_hidden))
