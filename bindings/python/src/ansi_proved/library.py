"""The shared libraries: where they are, how their functions are called, and what may be given to them."""

import ctypes
import os
import re
import threading

FEW = 1024  # bytes of a whole that goes through what an earlier one went through
MOST = 4096  # bytes that one call of a Converter takes at most
CALL_ROOM, END_ROOM = 16384, 6539  # bytes that one such call, and an end, write at most
ROOM = 64 << 10  # bytes that are handed on at once, at most
READ = 64 << 10  # bytes or characters of a file that are read at once, at most
TOO_LITTLE = "the library asks for more room than this version of the package gives"
FOLDER = os.path.dirname(os.path.abspath(__file__))


def load(file, variable):
    """The library that stands beside this module, or that the variable names; or an ImportError in words."""
    named, place = os.environ.get(variable), os.path.join(FOLDER, file)
    if not named and not os.path.exists(place):
        raise ImportError("%s is not at %s: `make library` puts it there, or %s names it" % (file, place, variable))
    try:
        return ctypes.CDLL(named or place)
    except OSError as error:
        which = "the library that %s names" % variable if named else "the library"
        raise ImportError("%s cannot be loaded: %s" % (which, error)) from error


LIBRARY = load("libansi.so", "ANSI_LIBRARY")


def function(name, answer, *kinds, library=LIBRARY):
    """A function of a library, with the types of its answer and of what it takes."""
    found = getattr(library, name, None)
    if found is None:
        raise ImportError("the library %s has no %s: it is an older one" % (library._name, name))
    found.restype, found.argtypes = answer, kinds
    return found


try:  # what reads a short whole by one call, where it was built
    from ._events import Whole
except ImportError:
    Whole = None


def short_by(feed, end, state, plain, room, end_room):
    """A function that makes the text of a str or of bytes, of FEW bytes at most, by what feeds and ends a stream, from the state
    that begins one; a whole of the plain characters, an expression, is its own text. It gives None for anything else, and where
    nothing does so in C."""
    if Whole is None:
        return lambda text: None
    places = (ctypes.cast(it, ctypes.c_void_p).value for it in (feed, end))
    plain = bytes(byte < 128 and len(plain.match(chr(byte))[0]) for byte in range(256))
    return Whole(*places, state, plain, FEW, room, end_room).of


# What calls answer and take that take bytes from the front of a piece, and that end a stream: its state; where the piece is, and how
# long; where the room is, and how long; and where they write how many bytes were taken, and how many were written.
FEED = [ctypes.c_bool, ctypes.c_void_p, ctypes.c_void_p, ctypes.c_size_t, ctypes.c_void_p, ctypes.c_size_t]
FEED += [ctypes.c_void_p, ctypes.c_void_p]
END = [ctypes.c_bool, ctypes.c_void_p, ctypes.c_void_p, ctypes.c_size_t, ctypes.c_void_p]


class Counts(ctypes.Structure):
    """How many bytes a call has taken, and how many it has written."""

    _fields_ = [("taken", ctypes.c_size_t), ("written", ctypes.c_size_t)]

    def places(self):
        """Where the two numbers stand."""
        at = ctypes.addressof(self)
        return at, at + WRITTEN


WRITTEN = Counts.written.offset


PIECES = str, bytes, bytearray, memoryview
SURROGATE = re.compile("[\ud800-\udfff]")


def utf8(text):
    """The UTF-8 of a str, of a type derived from it too. A surrogate, which no UTF-8 has, is U+FFFD in it."""
    try:
        return str.encode(text)
    except UnicodeEncodeError:
        return SURROGATE.sub("\ufffd", text).encode()


def bytes_of(piece):
    """The bytes of a piece, however it holds them."""
    if isinstance(piece, str):
        return utf8(piece)
    if not isinstance(piece, PIECES):
        raise TypeError("a piece is str, bytes, bytearray or memoryview, and not " + type(piece).__name__)
    return bytes(piece)


def address_of(piece):
    """Where the bytes of an object of bytes stand, for as long as it lives."""
    return ctypes.c_void_p.from_buffer(ctypes.c_char_p(piece)).value


def read_from(read):
    """What a file has, piece by piece, until it has no more."""
    piece = read(READ)
    while len(piece) if isinstance(piece, PIECES) else True:  # (what is no piece is told where it is looked at)
        yield piece
        piece = read(READ)


def pieces_of(stream):
    """The pieces of a stream one after another, as they are: of a file what it has, as soon as it has some."""
    if isinstance(stream, PIECES):
        raise TypeError("the pieces are a list or a file, and not one " + type(stream).__name__)
    # (read1 waits for some bytes, and read for as many as it is asked for)
    read = getattr(stream, "read1", None) or getattr(stream, "read", None)
    if callable(read):
        return read_from(read)
    try:
        return iter(stream)
    except TypeError as error:
        raise TypeError("the pieces are a list or a file, and not " + type(stream).__name__) from error


class Shared:
    """An iterator that threads may share: each part is given to one of them, and one waits for another."""

    def __init__(self, parts):
        # (who asks for a part inside of its own pieces does not wait for itself: a generator says what is wrong)
        self._parts, self._lock = parts, threading.RLock()

    def __iter__(self):
        return self

    def __next__(self):
        with self._lock:
            return next(self._parts)


def exact(text):
    """The characters alone of what is of a type derived from str, whose operators may do otherwise."""
    return str.__str__(text)


def whole_of(text):
    """The bytes of a whole text, and whether it is a str."""
    if isinstance(text, str):
        return utf8(text), True
    if not isinstance(text, (bytes, bytearray, memoryview)):
        raise TypeError("a text is str, bytes, bytearray or memoryview, and not " + type(text).__name__)
    return bytes(text), False


class Room:
    """Memory that calls write to."""

    def __init__(self, size):
        self._bytes = ctypes.create_string_buffer(size)
        self.size, self.address = size, ctypes.addressof(self._bytes)
        self.view = memoryview(self._bytes)


class Idle(list):
    """What wholes of FEW bytes at most go through: each is used by one call at a time, and put back."""

    def __init__(self, make):
        self._make = make

    def taken(self):
        """One that no other call uses."""
        try:
            return self.pop()
        except IndexError:  # (as many are made as threads call at once)
            return self._make()


def decoded(view):
    """The str of memory whose bytes are UTF-8."""
    return str(view, "utf-8")


class Converter:
    """A stream that becomes text of another kind, which goes on with each piece: by its state, what feeds it and what ends
    it. What was not written yet, or has to be closed, comes at the end."""

    def __init__(self, state, feed, end):
        self._state, self._feed, self._end = state, feed, end
        self._counts, self._room = Counts(), Room(CALL_ROOM)

    def texts(self, piece, made=bytes):
        """The text of the bytes that come next, in parts that are made of memory, each UTF-8 by itself."""
        if len(piece) > MOST and self._room.size < ROOM:
            self._room = Room(ROOM)
        state, room, counts = ctypes.addressof(self._state), self._room, self._counts
        feed, (taken, written) = self._feed, counts.places()
        at, filled, most = address_of(piece), 0, room.size - CALL_ROOM
        end = at + len(piece)
        while at < end:
            if not feed(state, at, min(MOST, end - at), room.address + filled, CALL_ROOM, taken, written):
                raise RuntimeError(TOO_LITTLE)
            at += counts.taken
            filled += counts.written
            if filled > most:
                yield made(room.view[:filled])
                filled = 0
        if filled:
            yield made(room.view[:filled])

    def ends(self, made=bytes):
        """What comes at the end, in no part or one."""
        room, (_, written) = self._room, self._counts.places()
        self._end(ctypes.addressof(self._state), room.address, room.size, written)
        if self._counts.written:
            yield made(room.view[: self._counts.written])


class ShortConverter:
    """Converts wholes of FEW bytes at most, each a stream of its own."""

    def __init__(self, state, feed, end):
        self._state, self._feed, self._end = state, feed, end
        self._counts, self._room = Counts(), Room(CALL_ROOM + END_ROOM)
        self._state_at, self._places = ctypes.addressof(state), self._counts.places()

    def text(self, piece):
        """The text of a whole, as memory that the next one is written to; or None where there is not room enough
        for it at once, and then this one is not to be used again."""
        room, counts, (taken, written) = self._room, self._counts, self._places
        self._feed(self._state_at, piece, len(piece), room.address, CALL_ROOM, taken, written)
        count = counts.written
        if counts.taken < len(piece) or not self._end(self._state_at, room.address + count, END_ROOM, written):
            return None
        return room.view[: count + counts.written]  # (and where a stream has ended the next one begins)


def parts_of(converter, pieces):
    """The text of pieces by a Converter, and what comes at the end: of a str a str, and of bytes bytes."""
    made = bytes
    for piece in pieces:
        made = decoded if isinstance(piece, str) else bytes
        yield from converter.texts(bytes_of(piece), made)
    yield from converter.ends(made)


def whole_text(converter, piece, is_str):
    """The text of a whole by a new Converter: its parts are made of memory, and each is UTF-8 by itself."""
    made = decoded if is_str else bytes
    parts = [*converter.texts(piece, made), *converter.ends(made)]
    return "".join(parts) if is_str else b"".join(parts)


def converted(piece, is_str, converter, idle):
    """The text of a whole as a str or as bytes, by a new Converter, or where it is short by one of those that are idle."""
    if len(piece) <= FEW:
        short = idle.taken()
        view = short.text(piece)
        if view is not None:
            text = (decoded if is_str else bytes)(view)
            idle.append(short)
            return text
    return whole_text(converter(), piece, is_str)
