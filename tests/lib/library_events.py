"""The events of the library, from C and Python: cases of tests/library and of tests/library_python."""

import ctypes
import importlib.machinery
import itertools
import re
import resource
import shutil
import struct
import subprocess

from lib.library_shared import *
from lib.numbers_told import HELD
from lib import needs

EVENT_SIZES = [(1, 2, 6258), (2, 3, 6300), (3, 4096, 65536), (7, 5, 6264), (4096, 4096, 65536)]  # piece, events, room


def event_cases(room):
    """The events that tests/callers/events.c writes as parselog writes calls: the answers of the Rust crate in
    tests/lib/answers.txt, and parselog's lines of longer streams; and what memory they take."""
    cc = compiler("cc", "gcc", "clang")
    if cc is None:
        yield left_out("events")
        return
    source, path = "%s/tests/callers/events.c" % ROOT, room + "/events"
    yield "events.c is compiled to write lines", failure(run([cc, "-O2", *WARNINGS, source, ARCHIVE, "-o", path]))
    rows = importlib.machinery.SourceFileLoader("vectors", "%s/tests/vectors" % ROOT).load_module().answers()
    for sizes in EVENT_SIZES:
        wrong = next((name for name, given, wanted in rows if events_differ(path, sizes, given, wanted)), None)
        why = wrong and "%s: %s" % (wrong, "other events")
        yield "events with pieces, events and room of %s: the calls that the Rust crate makes" % (sizes,), why
    for kind, stream in streams():
        wanted = log_of(stream)
        for sizes in EVENT_SIZES:
            yield "events %s: %s, as parselog" % (sizes, kind), events_differ(path, sizes, stream, wanted)
    stream = b"\x1b[31mhi\x07\x1b[0m\n" * 1_000_000
    done = run(["sh", "-c", 'ulimit -v 20000 && exec "$0" quiet 4096 1024 16384', path], stream)
    few = done.stdout.strip().isdigit() and 5_000_000 <= int(done.stdout) < 5_020_000  # a text is cut with its piece
    yield "five million events take less than 20 MB", failure(done) or (None if few else "it says %r" % done.stdout)
    yield from title_cases(room, cc)
    yield from rust_cases(room)
    if not shutil.which("valgrind"):
        yield needs.left_out("valgrind")
    else:
        command = ["valgrind", "-q", "--error-exitcode=9", path, "3", "5", "6300"]
        for kind, stream in list(streams())[:2]:
            yield "events under valgrind: %s" % kind, failure(run(command, stream[:3000]))


def log_of(stream):
    """The calls of a stream as parselog writes them."""
    return run(["%s/crates/parselog/out/parselog" % ROOT], stream).stdout


def title_cases(room, cc):
    """examples/titles.c, by rows worked by hand."""
    path = room + "/titles"
    command = [cc, "-std=c99", "-pedantic", "-O2", *WARNINGS, "%s/titles.c" % EXAMPLES, ARCHIVE, "-o", path]
    yield "titles.c is compiled with no warning", failure(run(command))
    cxx = compiler("c++", "g++", "clang++")
    words = ["-x", "c++", "-std=c++17", "-pedantic", *WARNINGS, "-fsyntax-only", "%s/titles.c" % EXAMPLES]
    yield ("and as C++", failure(run([cxx, *words]))) if cxx else left_out("C++: titles.c")
    given = b"a\x1b]0;one;two\x07\x1b[1m\x1b]2;\xe2\x82\xac\x1b\\\x1b]1;no\x07\x1b]20;no\x07\x1b]2;\x07\x1b]0;open"
    done = run([path], given)
    yield "titles.c prints titles", failure(done) or first_difference(done.stdout, b"one;two\n\xe2\x82\xac\n\n")
    with open("/dev/full", "wb") as full:
        done = subprocess.run([path], input=given, stdout=full)
    yield "titles.c ends with status 1 where a write fails", done.returncode != 1 and "status %d" % done.returncode
    done = subprocess.run(["sh", "-c", '"$0" < /', path], stdout=subprocess.DEVNULL)
    yield "titles.c ends with status 1 where a read fails", done.returncode != 1 and "status %d" % done.returncode


def rust_cases(room):
    """tests/callers/events.rs: the events of the package in Rust, which is an iterator."""
    path = room + "/events in Rust"
    if compiler("rustc") is None:
        yield left_out("Rust: events")
        return
    command = by_rust("%s/tests/callers/events.rs" % ROOT, room)
    yield "events.rs is compiled with no warning", failure(run([*command, "-o", path]))
    rows = importlib.machinery.SourceFileLoader("vectors", "%s/tests/vectors" % ROOT).load_module().answers()
    for size in ("1", "4096"):
        wrong = next((name for name, given, wanted in rows if events_differ(path, [size], given, wanted)), None)
        yield "Rust: events in pieces of %s: the calls that the Rust crate makes" % size, wrong and "%s: other events" % wrong
    for kind, stream in streams():
        yield "Rust: events of %s in one piece, as parselog" % kind, events_differ(path, ["99999"], stream, log_of(stream))


def lines_of_events(found):
    """The lines that parselog writes of the calls of events in Python."""
    for event in found:
        name, values = type(event).__name__, list(event)
        if name == "Text":
            yield from ("print U+%04X" % ord(it) for it in event.text)
        elif name in ("Execute", "Put"):
            yield "%s %02X" % (name.lower(), event.byte)
        elif name == "Unhook":
            yield "unhook"
        elif name == "Osc":
            yield " ".join(["osc_dispatch", str(event.bell).lower(), *(it.hex().upper() or "-" for it in event.parts)])
        else:
            fields = "".join(" [%s]" % ";".join(":".join(map(str, it)) for it in group) for group in values[:-3])
            collected = event.intermediates.encode().hex().upper() or "-"
            call = {"Hook": "hook", "Csi": "csi_dispatch", "Esc": "esc_dispatch"}[name]
            yield "%s%s %s %s %02X" % (call, fields, collected, str(event.ignored).lower(), ord(event.final))


def different_sequences(pieces):
    """Pieces of a thousand control sequences, of which no two are the same, of many final bytes."""
    for piece in range(pieces):
        yield b"".join(b"\x1b[%d;%d%c" % (piece, at, 0x40 + at % 63) for at in range(1000))


def python_event_cases(ansi):
    rows = importlib.machinery.SourceFileLoader("vectors", "%s/tests/vectors" % ROOT).load_module().answers()
    for name, cut in [("whole", lambda given: given), ("cut everywhere", lambda given: pieces(given, 1))]:
        wrong = None
        for row, given, wanted in rows:
            found = "".join("%s\n" % it for it in lines_of_events(ansi.events(cut(given)))).encode()
            wrong = wrong or (None if found == wanted else "%s: %r" % (row, found))
        yield "Python: events of streams that are %s: the calls that the Rust crate makes" % name, wrong
    for kind, stream in streams():
        found = "".join("%s\n" % it for it in lines_of_events(ansi.events(stream))).encode()
        yield "Python: events of %s in one piece, as parselog" % kind, first_difference(found, log_of(stream))
    before = resource.getrusage(resource.RUSAGE_SELF).ru_maxrss
    count = sum(1 for _ in ansi.events(different_sequences(300)))
    grown = resource.getrusage(resource.RUSAGE_SELF).ru_maxrss - before
    well = count == 300_000 and grown < 20_000
    yield "Python: 300,000 different events take less than 20 MB", None if well else "%d take %d kB" % (count, grown)
    for given in (5, None, [5], ["a", 5], [None]):
        try:
            answer = list(ansi.events(given))
        except TypeError:
            answer = None
        yield "Python: events of %r are a TypeError" % (given,), None if answer is None else "it gave %r" % answer
    given = "\u20ac\ud800\U0001f600\x1b[1m"
    found = "".join("%s\n" % it for it in lines_of_events(ansi.events(given))).encode()
    yield "Python: events of a str are those of its UTF-8", first_difference(found, log_of(utf8(given)))
    asked = []
    first = next(ansi.events(asked.append(it) or it for it in (b"one", b"two")))
    why = None if first == ("one",) and len(asked) == 1 else "%r came after %d pieces" % (first, len(asked))
    yield "Python: the events of a piece come before the next piece is asked for", why
    match = list(ansi.events("\x1b[1;38:2:9mA")) == [(((1,), (38, 2, 9)), "", False, "m"), ("A",)]
    yield "Python: an event is a tuple", None if match else "it is another"
    yield from alike_cases(ansi)
    yield from put_cases(ansi)
    yield from caller_stream_cases(ansi)
    yield from kept_cases(ansi)
    yield from end_cases(ansi)
    yield from cut_cases(ansi)


def alike(ansi):
    """Sequences that are alike but for one thing, each with its events, worked by hand."""
    one, st = ((1,),), ansi.Esc("", False, "\\")
    yield b"\x1b[1m", [ansi.Csi(one, "", False, "m")]
    yield b"\x1b[1n", [ansi.Csi(one, "", False, "n")]
    yield b"\x1b[?1m", [ansi.Csi(one, "?", False, "m")]
    yield b"\x1b[1 m", [ansi.Csi(one, " ", False, "m")]
    yield b"\x1b[1  m", [ansi.Csi(one, "  ", False, "m")]
    yield b"\x1b[1   m", [ansi.Csi(one, "  ", True, "m")]
    yield b"\x1b[1;2;3m", [ansi.Csi(((1,), (2,), (3,)), "", False, "m")]
    yield b"\x1b[1:2;3m", [ansi.Csi(((1, 2), (3,)), "", False, "m")]
    yield b"\x1b[1;2:3m", [ansi.Csi(((1,), (2, 3)), "", False, "m")]
    yield b"\x1b[1:2:3m", [ansi.Csi(((1, 2, 3),), "", False, "m")]
    yield b"\x1b[257;512;65535;65536m", [ansi.Csi(((257,), (512,), (65535,), (65535,)), "", False, "m")]
    yield b"\x1b[512m", [ansi.Csi(((512,),), "", False, "m")]
    yield b"\x1b[m", [ansi.Csi(((0,),), "", False, "m")]
    yield b"\x1bP1m\x1b\\", [ansi.Hook(one, "", False, "m"), ansi.Unhook(), st]
    yield b"\x1bP1:2$qm\x07\x1b\\", [ansi.Hook(((1, 2),), "$", False, "q"), ansi.Put(0x6D), ansi.Put(7), ansi.Unhook(), st]
    yield b"\x1b]1;m\x07", [ansi.Osc((b"1", b"m"), True)]
    yield b"\x1b]1;m\x1b\\", [ansi.Osc((b"1", b"m"), False), st]
    yield b"\x1b]1m\x07", [ansi.Osc((b"1m",), True)]
    yield b"\x1b]\x07\x07", [ansi.Osc((b"",), True), ansi.Execute(7)]
    yield b"\x1bm\n", [ansi.Esc("", False, "m"), ansi.Execute(10)]
    yield b"\x1b m\r", [ansi.Esc(" ", False, "m"), ansi.Execute(13)]
    yield b"\x1b  m\x9c", [ansi.Esc("  ", False, "m"), ansi.Execute(0x9C)]
    yield b"\x1b   m", [ansi.Esc("  ", True, "m")]
    yield "\x071m\u20ac\n".encode(), [ansi.Execute(7), ansi.Text("1m\u20ac"), ansi.Execute(10)]


def same_events(found, wanted):
    """Says where events differ, in kind or in what they hold, or answers None."""
    pairs = itertools.zip_longest(found, wanted)
    wrong = next(((at, a, b) for at, (a, b) in enumerate(pairs) if type(a) is not type(b) or a != b), None)
    return wrong and "event %d is %r, and not %r" % wrong


def alike_cases(ansi):
    """What is alike is not mixed up: by itself, and in both orders one after another, three times in one stream."""
    rows = list(alike(ansi))
    for given, wanted in rows:
        yield "Python: events of %r" % given, same_events(ansi.events(given), wanted)
    for name, some in [("in order", rows), ("in the other order", rows[::-1])]:
        stream, wanted = b"".join(given for given, _ in some) * 3, [it for _, events in some for it in events] * 3
        yield "Python: events that are alike, %s" % name, same_events(ansi.events(stream), wanted)
        cut = [it for byte in pieces(stream, 1) for it in (b"", byte)] + [b""]
        whole = texts_joined(ansi, ansi.events(cut))
        yield "Python: events that are alike, %s, with an empty piece before each byte" % name, same_events(whole, wanted)
    why = None if list(ansi.events(b"")) + list(ansi.events([])) + list(ansi.events([b"", ""])) == [] else "some came"
    yield "Python: no bytes have no events", why


def texts_joined(ansi, events):
    """Events with texts that follow one another as one."""
    for is_text, some in itertools.groupby(events, lambda it: type(it) is ansi.Text):
        yield from [ansi.Text("".join(it.text for it in some))] if is_text else some


def put_cases(ansi):
    """Device control strings of lengths around what one call writes, with all else before and behind them."""
    before, behind = [ansi.Text("a"), ansi.Hook(((0,),), "", False, "q")], [ansi.Unhook(), ansi.Esc("", False, "\\")]
    put = [*range(0x18), 0x19, *range(0x1C, 0x7F)]
    for count in [0, 1, 2, *range(4085, 4100), 8190, 16379, 16384, 70_000]:
        puts = [ansi.Put(put[at % len(put)]) for at in range(count)]
        string = b"a\x1bPq" + bytes(it.byte for it in puts) + b"\x1b\\"
        wanted = (before + puts + behind) * 2
        yield "Python: a string of %d bytes, twice" % count, same_events(ansi.events(string * 2), wanted)
    given, wanted = b"a\n\xe2\x82\xac\x07" * 9_000, [("a",), (10,), ("\u20ac",), (7,)] * 9_000
    found = [tuple(it) for it in ansi.events(given)]
    yield "Python: 36,000 events of many calls, each in its place", None if found == wanted else "they are others"


def caller_stream_cases(ansi):
    """Callers that fail, that stop and go on, and that change what they gave."""

    def failing():
        yield from (b"a\x1b[1", b"mb\n")
        raise KeyError("no more")

    found, why = [], "the caller's error does not come"
    try:
        for event in ansi.events(failing()):
            found.append(event)
    except KeyError:
        why = same_events(found, [ansi.Text("a"), ansi.Csi(((1,),), "", False, "m"), ansi.Text("b"), ansi.Execute(10)])
    yield "Python: the events before an error of the caller's stream are given, and then the error", why
    given = bytearray(b"one\n" + b"a\x1bPqxyz\x1b\\" * 10_000)
    wanted, events = list(ansi.events(bytes(given))), ansi.events(given)
    found = [next(events)]
    given[:] = b"\x07" * len(given)
    yield "Python: what is given may be changed when its first event has come", same_events(found + list(events), wanted)
    events, found = ansi.events([b"a\x1bPqxyz\x1b\\", b"\x1b[1mb"]), []
    other = ansi.events(b"\x1bP1;2rXYZ\x1b\\" * 100)
    for event in events:
        found.append(event)
        next(other)
    wanted = list(ansi.events(b"a\x1bPqxyz\x1b\\\x1b[1mb"))
    yield "Python: two streams are read by turns", same_events(found, wanted)
    buffer = bytearray(4)

    def reused():
        for piece in (b"ab\x1b[", b"1mcd", b"\x1bPqx", b"y\x1b\\e"):
            buffer[:] = piece
            yield buffer

    wanted = list(ansi.events(b"ab\x1b[1mcd\x1bPqxy\x1b\\e"))
    yield "Python: pieces may be one bytearray that is filled again", same_events(ansi.events(reused()), wanted)


def kept_cases(ansi):
    """No more events are kept than ansi.event.KEPT, also of those with nothing in the room, of which there are more."""
    marks = [bytes([one, two]) for one in range(0x20, 0x30) for two in range(0x20, 0x30)]
    for mark in marks:
        finals = [it for it in range(0x30, 0x7F)]
        given = b"".join(b"\x1b%s%c\x1b%s %c" % (mark, final, mark, final) for final in finals)
        wanted = [ansi.Esc(mark.decode(), flag, chr(final)) for final in finals for flag in (False, True)]
        why = same_events(ansi.events(given), wanted)
        if why:
            break
    count = len(ansi.event.WITHOUT_DATA)
    yield "Python: events of all escape sequences", why
    yield "Python: few of them are kept", None if count <= ansi.event.KEPT else "%d are" % count


# Where events end, worked by hand: for each piece of a stream, how many of its bytes had come when each event was whole.
ENDS = [
    ("a text, a sequence and a text", [b"a\x1b[1mb"], [[1, 5, 6]]),
    ("nothing", [b"", b"a", b""], [[], [1], []]),
    ("a sequence that is begun", [b"\x1b[1"], [[]]),
    ("a character of three bytes", [b"ab\xe2\x82\xacc\n"], [[6, 7]]),
    ("a character over two pieces", [b"a\xe2\x82", b"\xacb"], [[1], [2]]),
    ("one that the next piece breaks", [b"\xe2\x82", b"A\n"], [[], [1, 2]]),
    ("one that a control breaks", [b"\xe2\x82\n"], [[3, 3]]),
    ("one that another breaks", [b"a\xc3\xc3"], [[3]]),
    ("a sequence over two pieces", [b"x\x1b[1", b";2mB"], [[1], [3, 4]]),
    ("CAN within a sequence", [b"\x1b[1\x18a"], [[4, 5]]),
    ("CAN at the end of a command", [b"\x1b]0;t\x18a"], [[6, 6, 7]]),
    ("BEL there", [b"\x1b]0;t\x07a"], [[6, 7]]),
    ("ESC there", [b"\x1b]0;t\x1b\\a"], [[6, 7, 8]]),
    ("a command over three pieces", [b"\x1b]0;", b"t", b"\x07"], [[], [], [1]]),
    ("C1", [b"\x85\x9b1m"], [[1, 4]]),
    ("a device control string", [b"\x1bPqxy\x1b\\a"], [[3, 4, 5, 6, 7, 8]]),
    ("a control within a sequence", [b"\x1b[1\nm"], [[4, 5]]),
]


def ends_by_definition(ansi, before, piece):
    """The ends of a piece's events: the fewest bytes of it whose calls begin with those of the events so far."""
    calls = lambda bytes_: list(lines_of_events(ansi.events([before, bytes_])))
    own = calls(b"")
    fronts = [calls(piece[:count])[len(own) :] for count in range(len(piece) + 1)]
    stream = ansi.Events()
    stream.feed(before)
    events = stream.feed(piece)
    for at in range(1, len(events) + 1):
        said = list(lines_of_events(events[:at]))
        yield next(count for count, front in enumerate(fronts) if front[: len(said)] == said)


def end_cases(ansi):
    for name, cut, wanted in ENDS:
        stream, plain = ansi.Events(ends=True), ansi.Events()
        found = [stream.feed(piece) for piece in cut]
        ends = [[end for _, end in pairs] for pairs in found]
        yield "Python: where events end: %s" % name, None if ends == wanted else "it gives %s" % ends
        events = [event for pairs in found for event, _ in pairs]
        yield "and they are the same events", same_events(events, [event for piece in cut for event in plain.feed(piece)])
    for kind, given in streams():
        before, piece = given[:200], given[200:350]
        stream = ansi.Events(ends=True)
        stream.feed(before)
        found, wanted = [end for _, end in stream.feed(piece)], list(ends_by_definition(ansi, before, piece))
        yield "Python: where events of %s end, by their definition" % kind, None if found == wanted else "it gives %s, not %s" % (found, wanted)
    long, stream = b"a\x1b[1mb\n" * 30_000, ansi.Events(ends=True)
    found = stream.feed(long)
    wrong = [(event, end) for event, end in found if (type(event) is ansi.Execute) != (end % 7 == 0 and long[end - 1] == 10)]
    yield "Python: where 90,000 events of many calls end", None if len(found) >= 90_000 and not wrong and found[-1][1] == len(long) else "it gives %s" % wrong[:3]
    first = stream.feed(b"\x1b[")
    stream.end()
    yield "Python: where events end, after the end of a stream", None if (first, stream.feed(b"1m")) == ([], [(("1m",), 2)]) else "it goes on"


# Commands, with BEL behind each, and whether they may have been cut: 1,024 bytes are kept, in 16 parts.
COMMANDS = [
    ("a title", b"0;t", False),
    ("nothing", b"", False),
    ("1,023 bytes", b"x" * 1023, False),
    ("1,024", b"x" * 1024, True),
    ("1,025", b"x" * 1025, True),
    ("1,023 in two parts", b"0;" + b"x" * 1022, False),
    ("1,024 in two parts", b"0;" + b"x" * 1023, True),
    ("15 parts", b";" * 14, False),
    ("16", b";" * 15, True),
    ("17", b";" * 16, True),
    ("1,023 bytes, with controls that are none of it", b"x\n" * 1023, False),
]


def cut_cases(ansi):
    for name, text, wanted in COMMANDS:
        (found,) = ansi.events(b"\x1b]" + text + b"\x07")
        yield "Python: whether a command of %s may have been cut" % name, None if found.may_be_cut is wanted else "it answers %s" % found.may_be_cut
        whole = found.parts == tuple(text.replace(b"\n", b"").split(b";"))
        yield "and it has all that came where it may not", None if whole or found.may_be_cut else "it has %r" % (found.parts,)


def events_differ(path, sizes, stream, wanted):
    done = run([path, *map(str, sizes)], stream)
    return failure(done) or first_difference(done.stdout, wanted)


# What include/ansi_events.h tells of flags and fields: a stream of one event, its flag, and what stands in the room.
TOLD = [
    ("BEL ends a command", b"\x1b]0;t\x07", HELD["BELL"], b"0;t"),
    ("ST ends it", b"\x1b]0;t\x1b\\", 0, b"0;t"),
    ("CAN ends it", b"\x1b]0;t\x18", 0, b"0;t"),
    ("fields of one group, and another", b"\x1b[1:258;3m", 0, bytes([1, 0, HELD["GROUP"], 2, 1, 0, 3, 0, 0])),
    ("as many fields as are shown", b"\x1b[" + b";" * 31 + b"m", 0, bytes(96)),
    ("one more", b"\x1b[" + b";" * 32 + b"m", HELD["IGNORED"], bytes(96)),
    ("two intermediates", b"\x1b !p", 0, b""),
    ("three", b"\x1b !!p", HELD["IGNORED"], b""),
]


def told_cases():
    from ansi_proved.event import _feed
    from ansi_proved.text import State

    for name, stream, flag, data in TOLD:
        state, records, room, counts = State(), ctypes.create_string_buffer(24 * 64), ctypes.create_string_buffer(8192), (ctypes.c_size_t * 3)()
        at = ctypes.addressof(counts)
        _feed(ctypes.addressof(state), stream, len(stream), ctypes.addressof(records), 64, ctypes.addressof(room), 8192, at, at + 8, at + 16)
        start, length, _, _, found = struct.unpack_from("@NNBBB", records)
        is_so = (found, room.raw[start : start + length]) == (flag, data)
        yield "events: %s, and the flag is %d" % (name, flag), None if is_so else "it is %d, with %s" % (found, room.raw[start : start + length])
