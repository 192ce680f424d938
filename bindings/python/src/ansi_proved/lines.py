"""Text without the carriage returns that stand right before a line feed."""

import ctypes

from .library import END, FEED, TOO_LITTLE, Counts, Room, function


class State(ctypes.Structure):
    """Where a text stands between two pieces. A new one begins a text."""

    _fields_ = [("waits", ctypes.c_ubyte)]


_feed = function("ansi_lf_feed", *FEED)
_end = function("ansi_lf_end", *END)


def room_of(count):
    """The bytes of room in which so many are taken at once."""
    return count + 1


class Lines:
    """A stream whose text, as a Stripper makes it, has no such carriage returns; it goes on with each piece. A carriage return
    that comes last comes with the next part, or at the end."""

    def __init__(self, stripper):
        self._stripper = stripper
        self._state, self._counts, self._room = State(), Counts(), Room(room_of(0))

    def texts(self, piece, made=bytes):
        """The text of the bytes that come next, in parts that are made of memory, each UTF-8 by itself."""
        return self._left(self._stripper.texts(piece), made)

    def ends(self, made=bytes):
        """What comes at the end, in no part, one or two: U+FFFD where a character is begun, and what still waits."""
        yield from self._left(self._stripper.ends(), made)
        room, (_, written) = self._room, self._counts.places()
        _end(ctypes.addressof(self._state), room.address, room.size, written)
        if self._counts.written:
            yield made(room.view[: self._counts.written])

    def _left(self, parts, made):
        """What is left of parts of the text, each bytes."""
        state, counts = ctypes.addressof(self._state), self._counts
        taken, written = counts.places()
        for part in parts:
            if self._room.size < room_of(len(part)):
                self._room = Room(room_of(len(part)))
            room = self._room
            _feed(state, part, len(part), room.address, room.size, taken, written)
            if counts.taken != len(part):
                raise RuntimeError(TOO_LITTLE)
            if counts.written:
                yield made(room.view[: counts.written])
