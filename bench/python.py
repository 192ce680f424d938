#!/usr/bin/env python3
"""Times the Python package on the five kinds of streams, beside what Python does without it.

Usage: bench/python.py [--events | --screens | --short] [--bytes N] [--rounds N]

`make library` must have built the shared library, or ANSI_LIBRARY names it. `strip` is given a str and bytes,
beside the expression of strip-ansi over the same, in one `re.sub`; `to_html` a str, beside
bench/converter.py, a loop in Python over regular expressions. Each figure is the least wall time of some rounds
(5), in seconds, ours and the peer's by turns; a ratio is how many times as long the peer takes. That the peer
of the HTML shows the same text of a megabyte is checked, but for carriage returns.

With --events it is `events` alone, of bytes, beside `ByteStream` of pyte (Debian's python3-pyte; run this by
the Python that has it) whose listener does nothing, and beside the calls of the library that `events` makes,
with nothing read of what they write. Beside the times stand those for one event, in nanoseconds.

With --screens it is pyte's own benchmark, of `ansi_proved.pyte` beside pyte: a stream feeds a screen of 80x24, whole and again and again, by
corpora and recordings. Then what one takes that reads the screen after each feed of 100 bytes: by `display`, by each Char of `buffer`,
and by those of the lines that are dirty. These are seconds of a processor.

With --short it is what a call takes of a str of 20 characters, in microseconds: a clean one, and one with two
colours.
"""

import argparse
import ctypes
import html
import os
import re
import sys
import time

sys.dont_write_bytecode = True

import converter
import measure

ROOT = os.path.dirname(measure.HERE)
sys.path.insert(0, "%s/bindings/python/src" % ROOT)
EXPRESSION = (
    r"[\x1b\x9b][\[\]()#;?]*(?:(?:(?:(?:;[-a-zA-Z\d/#&.:=?%@~_]+)*"
    r"|[a-zA-Z\d]+(?:;[-a-zA-Z\d/#&.:=?%@~_]*)*)?(?:\x07|\x1b\\|\x9c))"
    r"|(?:(?:\d{1,4}(?:;\d{0,4})*)?[\dA-PR-TZcf-nq-uy=><~]))"
)
OF_STR = re.compile(EXPRESSION, re.ASCII)
OF_BYTES = re.compile(EXPRESSION.encode("ascii"))


def least(actions, rounds, clock=time.perf_counter):
    """The least time of each, by turns."""
    took = [[] for _ in actions]
    for _ in range(rounds):
        for action, times in zip(actions, took):
            start = clock()
            result = action()
            times.append(clock() - start)
            del result
    return [min(times) for times in took]


def shown(page):
    """The text that a page shows, without carriage returns."""
    return html.unescape(re.sub("<[^>]*>", "", page)).replace("\r", "")


def main():
    parser = argparse.ArgumentParser(description=__doc__, formatter_class=argparse.RawDescriptionHelpFormatter)
    parser.add_argument("--events", action="store_true")
    parser.add_argument("--screens", action="store_true")
    parser.add_argument("--short", action="store_true")
    parser.add_argument("--bytes", type=int, help="(16 MiB, of events 1 MiB, of screens 64 KiB)")
    parser.add_argument("--rounds", type=int, default=5)
    options = parser.parse_args()
    options.bytes = options.bytes or (1 << 20 if options.events else 1 << 16 if options.screens else 16 << 20)
    print(measure.load())
    (time_events if options.events else time_screens if options.screens else time_short if options.short else time_texts)(options)
    print(measure.load())


def time_texts(options):
    """A row for each corpus: `strip` of a str and of bytes, and `to_html`."""
    from ansi_proved import strip, to_html

    heading = "".join("  %8s %8s %6s" % (name, "peer", "ratio") for name in ("str", "bytes", "to_html"))
    print("%-12s" % "seconds" + heading)
    for make_line in measure.CORPORA:
        stream = measure.corpus(make_line, options.bytes)
        text = stream.decode(errors="ignore")
        some = text[: text.rindex("\n" if "\n" in text[:1000] else "\x1b", 0, 1_000_000)]
        if shown(to_html(some)) != shown(converter.to_html(some)):
            sys.exit("python.py: the pages show another text on " + make_line.__name__)
        row = "%-12s" % make_line.__name__
        for ours, theirs in [
            (lambda: strip(text), lambda: OF_STR.sub("", text)),
            (lambda: strip(stream), lambda: OF_BYTES.sub(b"", stream)),
            (lambda: to_html(text), lambda: converter.to_html(text)),
        ]:
            times = least((ours, theirs), options.rounds)
            row += "  %8.4f %8.4f %6.1f" % (*times, times[1] / times[0])
        print(row, flush=True)


def time_short(options):
    """A row for each str: `strip`, `to_html` and `events`, and the peers of the first two."""
    from ansi_proved import events, strip, to_html

    names = "strip", "expression", "to_html", "loop", "events"
    calls = strip, lambda it: OF_STR.sub("", it), to_html, converter.to_html, lambda it: list(events(it))
    print("%-12s" % "microseconds" + "".join("  %10s" % it for it in names))
    for name, text in [("clean", "twenty letters clean"), ("two colours", "\x1b[31mred\x1b[0m, plain.")]:
        actions = [lambda call=call: [call(text) for _ in range(1000)] for call in calls]
        times = least(actions, 40 * options.rounds)
        print("%-12s" % name + "".join("  %10.2f" % (1000 * it) for it in times), flush=True)


class Listener:
    """What pyte hands events to: it does nothing with any of them."""

    def __getattr__(self, name):
        return self.nothing

    def nothing(self, *values, **named):
        pass


def time_events(options):
    """A row for each corpus: `events`, pyte, and the library alone."""
    import pyte
    from ansi_proved import events

    print("%-12s  %8s  %8s  %6s  %8s  %6s" % ("seconds", "events", "pyte", "ratio", "library", "ns"))
    for make_line in measure.CORPORA:
        stream = measure.corpus(make_line, options.bytes)
        actions = [
            lambda: read_all(events(stream)),
            lambda: pyte.ByteStream(Listener()).feed(stream),
            lambda: call_all(stream),
        ]
        ours, theirs, alone = least(actions, options.rounds)
        values = make_line.__name__, ours, theirs, theirs / ours, alone, 1e9 * ours / call_all(stream)
        print("%-12s  %8.4f  %8.4f  %6.1f  %8.4f  %6.0f" % values, flush=True)


def recordings():
    """What programs wrote to a terminal of 80x24."""
    folder = ROOT + "/tests/screen/recordings"
    for name in sorted(os.listdir(folder)):
        with open("%s/%s" % (folder, name), encoding="utf-8", newline="") as file:
            yield name, file.read()


def each_char(screen, lines):
    for line in lines:
        row = screen.buffer[line]
        for column in range(screen.columns):
            row[column]


def dirty_chars(screen):
    each_char(screen, screen.dirty)
    screen.dirty.clear()


READINGS = {"display": lambda it: it.display, "buffer": lambda it: each_char(it, range(it.lines)), "dirty": dirty_chars}


def feed_and_read(pyte, text, read):
    screen = pyte.Screen(80, 24)
    stream = pyte.Stream(screen)
    for at in range(0, len(text), 100):
        stream.feed(text[at : at + 100])
        read(screen)


def time_screens(options):
    """A row for each stream, that a Screen and a HistoryScreen are fed, and one for each way to read."""
    import pyte
    import ansi_proved.pyte as ours

    streams = [(it.__name__, measure.corpus(it, options.bytes).decode(errors="ignore")) for it in measure.CORPORA]
    row = "%-20s  %8d" + 2 * "  %8.5f  %8.5f  %6.1f"
    print("%-20s  %8s" % ("seconds", "chars") + "".join("  %8s  %8s  %6s" % (it, "pyte", "ratio") for it in ("Screen", "History")))
    for name, text in [*streams, *recordings()]:
        values = []
        for kind in ("Screen", "HistoryScreen"):
            fed = [module.Stream(getattr(module, kind)(80, 24)) for module in (ours, pyte)]
            times = least([lambda it=it: it.feed(text) for it in fed], options.rounds, time.process_time)
            values += [*times, times[1] / times[0]]
        print(row % (name, len(text), *values), flush=True)
    print("%-20s  %8s  %8s  %6s" % ("seconds, read", "ours", "pyte", "ratio"))
    text = dict(recordings())["pip"]
    for name, read in READINGS.items():
        times = least([lambda module=module: feed_and_read(module, text, read) for module in (ours, pyte)], options.rounds, time.process_time)
        print("%-20s  %8.5f  %8.5f  %6.1f" % (name, *times, times[1] / times[0]), flush=True)


def read_all(events):
    for _ in events:
        pass


def call_all(stream):
    """Makes the calls of `events`, and answers how many events they write."""
    from ansi_proved.event import EVENTS, MOST, NUMBERS_AT, ROOM, SIZE, Numbers, State, _feed
    from ansi_proved.library import address_of

    state, numbers, count = State(), Numbers(), 0
    buffers = state, ctypes.create_string_buffer(EVENTS * SIZE), ctypes.create_string_buffer(ROOM), numbers
    state_at, records, room, first = map(ctypes.addressof, buffers)
    places = [first + place for place in NUMBERS_AT]
    at = address_of(stream)
    end = at + len(stream)
    while at < end:
        _feed(state_at, at, min(MOST, end - at), records, EVENTS, room, ROOM, *places)
        at += numbers.taken
        count += numbers.written
    return count


if __name__ == "__main__":
    main()
