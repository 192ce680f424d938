"""All that the extension of the package ansi_proved does, often enough that valgrind tells what is not given back: tests/lib/library_compiled.py
runs it so. PYTHONPATH says where the package is."""

import gc
import itertools
import sys

import ansi_proved

KINDS = [b"a\xe2\x82\xacb\x1b[m", b"\n", b"\x1bPqxy\x1b\\", b"\x1b]0;title;x\x07", b"\x1b[38:2:300:4;1000 q", b"\x1b(B", b"\x1bP1000;2:3$q\x1b\\"]
SHORT = ["", "clean", "\x1b[31mred\u20ac", "\x1b]8;;http://a\x07l", "\ud800", "\x1b[3", "x" * 2000, b"\x1b[1ma", b"\xe2\x82", 511 * "\u20ac"]


def failing():
    yield b"a\x1b[1m"
    raise KeyError("no more")


def asking(events):
    yield b"a"
    try:
        next(events[0])
    except ValueError:
        yield b"b"


def once():
    for kind in KINDS:
        list(ansi_proved.events(kind * 3))
        list(ansi_proved.events([kind[:2], b"", kind[2:]]))
        next(ansi_proved.events(kind * 1000), None)  # (the rest is let go of)
    for given in ([b"a", 5], failing(), ["a", b"b"]):
        try:
            list(ansi_proved.events(given))
        except (TypeError, KeyError):
            pass
    events = []
    events.append(ansi_proved.events(asking(events)))
    list(events[0])
    events.clear()
    for text in SHORT:
        ansi_proved.strip(text)
        for styling in ansi_proved.STYLINGS:
            ansi_proved.to_html(text, styling)
    for wrong in ((), (1, 2, b"", b"", 1, 1, 1), ("a", 1, b"", bytes(256), 1, 1, 1), (0, 0, b"", bytes(256), 1, 1, 1), (1, 1, b"", bytes(256), -1, 1, 1)):
        try:
            type(ansi_proved.text.SHORT.__self__)(*wrong)
        except (TypeError, ValueError, OverflowError):
            pass


assert ansi_proved.event.IS_COMPILED
for _ in itertools.repeat(None, int(sys.argv[1])):
    once()
gc.collect()
