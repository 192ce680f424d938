"""Terminal output as events."""

import ctypes
import re
import struct
import sys
from itertools import chain
from threading import Lock
from typing import NamedTuple, Tuple, Union

from .library import FEW, PIECES, TOO_LITTLE, Idle, Shared, address_of, bytes_of, function, pieces_of
from .text import State

MOST = 16384  # bytes that one call is given at most
PENDING = len(State().pending)  # bytes of a stream that are pending, at most
EVENTS, ROOM = 4096, 65536  # records and bytes of room that one call writes at most
# A record is three numbers: start and length of its bytes in the room; and its key, which is all else of it, in
# bytes kind, byte, flag, how many intermediates, two of these, and padding, two that are 0.
NUMBERS, SIZE, KEY = 3, 24, 16  # its numbers, its bytes, and where among these its key begins
TEXT, EXECUTE, HOOK, PUT, UNHOOK, OSC, CSI, ESC = range(8)  # the kinds; the key of a text is TEXT
PUTS_AT_ONCE = re.compile(b"\x03\x03*")  # kinds PUT, one after another (by "\x03+" they are found in twice the time)
KEPT = 16384  # events that a stream keeps, to give them again; looked at where as many were read
KEPT_LENGTH = 64  # bytes in the room that such an event has at most
FIELD, ALONE = struct.Struct("<HB"), struct.Struct("<Hx")  # a field, and one that is a group by itself
RECORD = struct.Struct("@NNB7x")  # a record with no more than where its bytes are, and its kind
_new = tuple.__new__

_feed = function(
    "ansi_events_feed", ctypes.c_bool,
    ctypes.c_void_p, ctypes.c_void_p, ctypes.c_size_t, ctypes.c_void_p, ctypes.c_size_t,
    ctypes.c_void_p, ctypes.c_size_t, ctypes.c_void_p, ctypes.c_void_p, ctypes.c_void_p,
)  # fmt: skip
_ends = function(
    "ansi_events_ends", ctypes.c_size_t,
    ctypes.c_void_p, ctypes.c_void_p, ctypes.c_size_t, ctypes.c_void_p, ctypes.c_size_t,
)  # fmt: skip
_may_be_cut = function("ansi_events_may_be_cut", ctypes.c_bool, ctypes.c_void_p, ctypes.c_void_p, ctypes.c_size_t)


class Text(NamedTuple):
    """Characters that are printed."""

    text: str


class Execute(NamedTuple):
    """A control."""

    byte: int


class Hook(NamedTuple):
    """A device control string begins."""

    parameters: Tuple[Tuple[int, ...], ...]
    intermediates: str
    ignored: bool
    final: str


class Put(NamedTuple):
    """A byte of it."""

    byte: int


class Unhook(NamedTuple):
    """It ends. With no field it is an empty tuple, and so false."""


class Osc(NamedTuple):
    """An operating system command: its first 16 parts, of 1,024 bytes in all, and whether BEL ended it."""

    parts: Tuple[bytes, ...]
    bell: bool

    @property
    def may_be_cut(self) -> bool:
        """Whether more may have come: it has the most parts, or the most bytes in them. Where not, that is all that came."""
        text = b";".join(self.parts)
        return _may_be_cut(RECORD.pack(0, len(text), OSC), text, len(text))


class Csi(NamedTuple):
    """A control sequence: groups of fields, as ((38, 2, 9), (1,)) of 38:2:9;1; a marker and intermediates;
    whether more came than is shown; the final character."""

    parameters: Tuple[Tuple[int, ...], ...]
    intermediates: str
    ignored: bool
    final: str


class Esc(NamedTuple):
    """An escape sequence."""

    intermediates: str
    ignored: bool
    final: str


Event = Union[Text, Execute, Hook, Put, Unhook, Osc, Csi, Esc]  # for annotations
PUTS = tuple(Put(byte) for byte in range(256))


def _groups(data):
    if 1 not in data[2::3]:
        return tuple(ALONE.iter_unpack(data))
    groups, group = [], []
    for value, goes_on in FIELD.iter_unpack(data):
        group.append(value)
        if not goes_on:
            groups.append(tuple(group))
            group = []
    return tuple(groups)


def _event_of(key):
    """What makes the event of a record with this key, of its bytes in the room; it is no Text and no Put."""
    kind, byte, flag, count, *intermediates = key.to_bytes(8, sys.byteorder)
    if kind == EXECUTE:
        return lambda data: Execute(byte)
    if kind == UNHOOK:
        return lambda data: Unhook()
    if kind == OSC:
        return lambda data: Osc(tuple(data.split(b";")), flag != 0)
    rest = bytes(intermediates[:count]).decode("ascii"), flag != 0, chr(byte)
    if kind == ESC:
        return lambda data: Esc(*rest)
    header = Hook if kind == HOOK else Csi
    return lambda data: _new(header, (_groups(data), *rest))


class _OfKey(dict):
    """Events of one key, by their bytes in the room; short ones are kept."""

    def __init__(self, key):
        self._event_of = _event_of(key)

    def __missing__(self, data):
        event = self._event_of(data)
        if len(data) <= KEPT_LENGTH:
            self[data] = event
        return event


class _Kept(dict):
    """Events by their key, and then by their bytes in the room."""

    def __missing__(self, key):
        self[key] = events = _OfKey(key)
        return events

    def make_room(self):
        """Lets go of all where they are too many."""
        if len(self) + sum(map(len, self.values())) > KEPT:
            self.clear()


class _WithoutData(dict):
    """Events that have nothing in the room, by their key."""

    def __missing__(self, key):
        if len(self) >= KEPT:
            self.clear()
        self[key] = event = _event_of(key)(b"")
        return event


WITHOUT_DATA = _WithoutData()


class Numbers(ctypes.Structure):
    """How many bytes a call has taken, and how many records and bytes of room it has written."""

    _fields_ = [("taken", ctypes.c_size_t), ("written", ctypes.c_size_t), ("used", ctypes.c_size_t)]


NUMBERS_AT = [Numbers.taken.offset, Numbers.written.offset, Numbers.used.offset]


class _Reader:
    """A stream, which goes on with each piece; its events, or pairs of each and where it ends."""

    def __init__(self, ends=False):
        self._state, self._numbers, self._kept, self._most, self._read = State(), Numbers(), _Kept(), 0, 0
        self._ends = (ctypes.c_size_t * EVENTS)() if ends else None

    def _make_room(self, most):
        """Makes room for the events of so many bytes, or for what one call writes at most."""
        count, size, self._most = min(2 * most, EVENTS), min(6 * (most + PENDING), ROOM), most
        self._records, self._room = map(ctypes.create_string_buffer, (count * SIZE, size))
        self._view = memoryview(self._records).cast("B").cast("Q")
        self._records_at, self._room_at, first = map(ctypes.addressof, (self._records, self._room, self._numbers))
        self._rest = (self._records_at, count, self._room_at, size, *(first + place for place in NUMBERS_AT))

    def events(self, piece):
        """The events of the bytes that come next, in parts."""
        if self._most < min(MOST, len(piece)):
            self._make_room(min(MOST, len(piece)))
        numbers, state, at = self._numbers, ctypes.addressof(self._state), address_of(piece)
        start, end = at, at + len(piece)
        while at < end:
            before = self._ends and State.from_buffer_copy(self._state)
            if not _feed(state, at, min(MOST, end - at), *self._rest):
                raise RuntimeError(TOO_LITTLE)
            written = ctypes.string_at(self._records_at, SIZE * numbers.written)
            parts = self._parts(written, ctypes.string_at(self._room_at, numbers.used))
            yield from [self._with_ends(parts, before, at, at - start)] if before else parts
            at += numbers.taken
            self._read += len(written) // SIZE
            if self._read > KEPT:
                self._read = 0
                self._kept.make_room()

    def _with_ends(self, parts, before, at, start):
        """Pairs of the events of one call and where they end, by the state before it, where its bytes are, and how many of the piece
        came before these."""
        numbers, places = self._numbers, ctypes.addressof(self._ends)
        if _ends(ctypes.addressof(before), at, numbers.taken, places, numbers.written) != numbers.written:
            raise RuntimeError("the library says of other events where they end")
        return list(zip(chain.from_iterable(parts), (start + end for end in self._ends[: numbers.written])))

    def _parts(self, records, room):
        """The events of one call, in order: Puts that follow one another, and what stands before them and behind."""
        bytes_, at = records[KEY + 1 :: SIZE], 0
        for puts in PUTS_AT_ONCE.finditer(records[KEY::SIZE]):
            start, end = puts.span()
            if at < start:
                yield self._others(at, start, room)
            yield map(PUTS.__getitem__, bytes_[start:end])
            at = end
        if at < len(bytes_):
            yield self._others(at, len(bytes_), room)

    def _others(self, start, end, room):
        """The events of some records, none of them a Put; what the last call has written still stands."""
        kept = self._kept
        numbers = iter(self._view[NUMBERS * start : NUMBERS * end].tolist())
        return [
            _new(Text, (room[start : start + length].decode(),))
            if key == TEXT
            else kept[key][room[start : start + length]]
            if length
            else WITHOUT_DATA[key]
            for start, length, key in zip(numbers, numbers, numbers)
        ]

    def whole(self, piece):
        """The events of a whole, which is a stream of its own."""
        self._state.length = 0  # (so a stream begins, whatever stands behind: pending_of of stream_state)
        return list(chain.from_iterable(self.events(piece)))


READERS = Idle(_Reader)


def _events_of(pieces):
    """The events of each piece."""
    reader = _Reader()
    for piece in map(bytes_of, pieces):
        for part in reader.events(piece):
            yield from part


try:  # what makes the same events in C, where it was built
    from ._events import Reader as _CompiledReader
except ImportError:
    _CompiledReader = None

IS_COMPILED = _CompiledReader is not None  # whether events are made by it
# What it takes behind the pieces: the address of the function, and for each kind a class or the events that there are.
_MADE = Text, tuple(map(Execute, range(256))), Hook, PUTS, Unhook(), Osc, Csi, Esc
_REST = ctypes.cast(_feed, ctypes.c_void_p).value, _MADE


def events(stream):
    r"""Gives the events of a stream: a str, bytes, a bytearray or a memoryview; or pieces of such, as a list or a file.

        for event in ansi_proved.events(b"\x1b]0;title\x07\x1b[1;31mred\n"):
            match event:
                case ansi_proved.Text(text):
                    ..
                case ansi_proved.Osc((b"0" | b"2", *title)):  # b";".join(title) is the title
                    ..
                case ansi_proved.Csi(parameters, "", False, "m"):  # ((1,), (31,))
                    ..

    Each is a named tuple of this package, whose kinds help says: Text, Execute, Csi, Esc, Osc, and Hook, Put and Unhook. A file
    is read as by `text_of`. The events of a piece are given before the next piece is asked for, and say the same however the
    stream is cut, but for a text, which is cut where its piece ends. What is begun and never ended leaves no event. Threads may
    share what this gives: each event goes to one of them.
    """
    is_whole = isinstance(stream, PIECES)
    if IS_COMPILED:
        return _CompiledReader(map(bytes_of, (stream,) if is_whole else pieces_of(stream)), *_REST)
    if not is_whole:
        return Shared(_events_of(pieces_of(stream)))
    piece = bytes_of(stream)
    if len(piece) > FEW:
        return Shared(_events_of([piece]))
    reader = READERS.taken()
    found = reader.whole(piece)
    READERS.append(reader)
    return iter(found)


class Events:
    r"""A stream whose pieces come one by one, as from a terminal or a socket; what it begins goes on in the next piece.

        stream = ansi_proved.Events()
        while piece := connection.recv(4096):
            for event in stream.feed(piece):
                ..

    The events say the same however the stream is cut, but for a text, which is cut where its piece ends. The end leads to none, so a
    last stream needs no `end()`. Threads may share one: a call waits for that of another.

    With `ends=True` each is a pair of an event and where it ends: how many bytes of the piece, of a str in UTF-8, had come when it was
    whole. A sequence ends with its final byte, and what is broken off with the byte that breaks it off. It takes longer.
    """

    def __init__(self, ends=False):
        self._lock, self._ends = Lock(), bool(ends)
        self._feed = _new_feed(self._ends)

    def feed(self, piece):
        """The events of the piece that comes next, a list: a piece is a str, bytes, a bytearray or a memoryview."""
        piece = bytes_of(piece)
        with self._lock:
            return self._feed(piece)

    def end(self):
        """Ends the stream: what is begun leaves no event, and the next piece begins another stream."""
        with self._lock:
            self._feed = _new_feed(self._ends)


def _new_feed(ends):
    """What gives the events of the pieces of one stream, each as a list; where ends are asked for, pairs."""
    if IS_COMPILED and not ends:
        return _CompiledReader(iter(()), *_REST).feed
    reader = _Reader(ends)
    return lambda piece: list(chain.from_iterable(reader.events(piece)))
