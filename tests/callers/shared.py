"""Eight threads over one screen, and over the same parts and events, by the package ansi_proved: one is at work at a time, none fails, and
each sees all of a piece or nothing of it. PYTHONPATH says where the package is; the word `screen` or `streams` what is shared."""

import collections
import itertools
import re
import sys
import threading
from functools import partial

import ansi_proved
from ansi_proved import Screen

ROUNDS = 100
COLUMNS, ROWS = 20, 6
ROWS_FED = 150  # by a piece
wrong = []


def in_threads(actions):
    """Runs each in a thread, and keeps what fails."""

    def guarded(action):
        try:
            action()
        except BaseException as error:  # (a thread would only print it)
            wrong.append("%s: %s" % (type(error).__name__, error))

    threads = [threading.Thread(target=guarded, args=(it,), daemon=True) for it in actions]
    for it in threads:
        it.start()
    for it in threads:
        it.join(120)
    assert not any(it.is_alive() for it in threads), "threads wait for each other"
    assert not wrong, "%d are wrong, the first: %s" % (len(wrong), wrong[0])


def piece_of(letter):
    """After it the screen and the rows that left it last have this letter alone; a capital hides the cursor."""
    rows = ("\r\n" + letter * COLUMNS) * ROWS_FED
    place = "\x1b[?25l\x1b[2;2H" if letter.isupper() else "\x1b[?25h\x1b[3;3H"
    return "\x1b[%d;1H" % ROWS + rows + place


def text_of_cells(rows):
    return "".join(cell.text for row in rows for cell in row)


# What a thread reads of the shared screen, as a text of one letter; `other` is a screen of its own.
READS = {
    "text": lambda screen, other: screen.text(),
    "text, joined": lambda screen, other: screen.text(joined=True),
    "text, with what left": lambda screen, other: screen.text(history=True),
    "HTML of what left": lambda screen, other: screen.history.to_html(),
    "str": lambda screen, other: str(screen),
    "display": lambda screen, other: "".join(screen.display),
    "row_text": lambda screen, other: screen.row_text(0),
    "part_text": lambda screen, other: screen.part_text(ROWS - 1, 1, COLUMNS),
    "cell": lambda screen, other: screen.cell(3, 3).text,
    "row": lambda screen, other: text_of_cells([screen.row(2)]),
    "cells": lambda screen, other: text_of_cells(screen.cells),
    "to_html": lambda screen, other: screen.to_html(),
    "to_svg": lambda screen, other: "".join(re.findall(">([^<>]*)</text>", screen.to_svg(history=True))),
    "copy": lambda screen, other: moment_of(screen.copy()),
    "history": lambda screen, other: text_of_cells(screen.history[:]),
    "history.display": lambda screen, other: "".join(screen.history.display),
    "history.text": lambda screen, other: screen.history.text(),
    "history.row_text": lambda screen, other: screen.history.row_text(-1),
    "history.row": lambda screen, other: text_of_cells([screen.history[0]]),
    "draw": lambda screen, other: shown_by(screen.draw()),
    "update": lambda screen, other: shown_by(other.update(screen)),
    "update from": lambda screen, other: shown_by(screen.update(other))[:0],
    "==": lambda screen, other: "" if (screen == other) in (False, True) and (other != screen) in (False, True) else "==",
    "len": lambda screen, other: "" if len(screen.history) == 12 else "len",
    "left": lambda screen, other: "" if screen.history.left % ROWS_FED == 0 else "left",
    "changed": lambda screen, other: "" if set(screen.changed()) <= set(range(ROWS)) else "changed",
    "changes": lambda screen, other: "" if {it.row for it in screen.changes()} <= set(range(ROWS)) else "changes",
    "style": lambda screen, other: "" if not screen.style.bold else "style",
    "modes": lambda screen, other: "" if screen.modes.autowrap else "modes",
    "link": lambda screen, other: screen.link(1),
    "cursor": lambda screen, other: "" if screen.cursor in [(1, 1, False), (2, 2, True)] else "cursor",
    "repr": lambda screen, other: "" if repr(screen).startswith("<Screen 20x6, cursor at row ") else "repr",
    "history, said": lambda screen, other: "" if repr(screen.history).startswith("<History of 12 rows, ") else "history, said",
}


def moment_of(copy):
    return copy.text() + copy.history.text()


def shown_by(drawing):
    with Screen(COLUMNS, ROWS) as screen:
        screen.feed(drawing)
        return screen.text()


def share_a_screen():
    """Four feed; four read, each all that can be read, in an order of its own."""
    screen, reading = Screen(COLUMNS, ROWS, history=12), [4]
    screen.feed(piece_of("a"))

    def feed(letter):
        piece = piece_of(letter)
        while reading[0] > 0 and not wrong:
            screen.feed(piece)

    def read(first):
        names = list(READS)
        with Screen(COLUMNS, ROWS) as other:
            for name in ROUNDS * (names[first:] + names[:first]):
                found = READS[name](screen, other)
                if len(set(filter(str.isalpha, found))) > 1:
                    wrong.append("%s has %r" % (name, found[:200]))
        reading[0] -= 1

    in_threads([partial(feed, letter) for letter in "bCdE"] + [partial(read, first) for first in (0, 7, 14, 21)])
    others = [Screen(COLUMNS, ROWS) for _ in range(2)]
    in_threads([partial(cross, others[at % 2], others[1 - at % 2]) for at in range(8)])
    in_threads([partial(begin_anew, Screen(500, 200))] * 4)
    follow()
    between_steps()
    close_early()


def cross(one, other):
    """Each of two screens leads to the other, by turns of both orders, while both are fed and read."""
    for _ in range(10 * ROUNDS):
        one.update(other)
        one == other
        one.feed("\x1b[2J\x1b[Hx" * 50)
        if one.text() != "x\n":
            wrong.append("it shows %r" % one.text())


def begin_anew(screen):
    """What is reset is blank, until it is fed."""
    for _ in range(2 * ROUNDS):
        screen.reset()
        screen.feed(b"\x1b[Hx" * 500)
        if screen.text() not in ("", "x\n"):
            wrong.append("it shows %r" % screen.text())


def follow():
    """A thread writes each row once, and another is told of each, whenever it asks."""
    screen, told, written = Screen(2, 1000), set(), []
    screen.changes()

    def write():
        for row in range(1, 1001):
            screen.feed(b"\x1b[%dHx" % row + b"\x1b[m" * 3000)
        written.append(True)

    def ask():
        is_last = False
        while not is_last:
            is_last = written == [True]
            told.update(it.row for it in screen.changes())

    in_threads([write, ask])
    if len(told) < 1000:
        wrong.append("of %d rows nothing is told that have changed" % (1000 - len(told)))


class Stopped(Screen):
    """A screen that tells another thread of its steps: what that does in the midst of a call has to wait until the call is at its end."""

    def _each_row(self):
        found = super()._each_row()
        self.told()
        return found

    def _counts(self):
        found = super()._counts()
        self.told()
        return found


def between_steps():
    """What is fed in the midst of a call is told by the next one, and a row that is asked for is there, whoever resets the screen meanwhile."""
    screen, found = Stopped(COLUMNS, ROWS, history=12), []
    screen.told = lambda: None
    screen.feed(piece_of("a"))
    screen.changed()

    def told_while(action):
        """In the midst of the next call another thread does this, once, and has a second for it."""
        other = threading.Thread(target=action, daemon=True)

        def told():
            screen.told = lambda: None
            other.start()
            other.join(1)

        screen.told = told
        return other

    other = told_while(lambda: (screen.feed("\x1b[Hx"), found.append(screen.changed())))
    found.append(screen.changed())
    other.join()
    if found != [[], [0]] or screen.changed() != []:
        wrong.append("what is fed while it is asked what changed is told by %s" % found)
    other = told_while(screen.reset)
    text = screen.history.row_text(-1)
    other.join()
    if text != COLUMNS * "a" or len(screen.history):
        wrong.append("a row that left is %r" % text)


def close_early():
    """A thread that closes a screen leaves the others with an error in words, and no other."""
    for _ in range(ROUNDS):
        screen, told = Screen(COLUMNS, ROWS), []

        def use():
            try:
                while True:  # (however late the screen is closed)
                    screen.feed(b"x")
                    screen.text()
            except ValueError as error:
                told.append(str(error))

        in_threads([use] * 7 + [screen.close])
        assert set(told) <= {"the screen is closed"} and len(told) == 7, told[:3]


STREAM = b"a\x1b[1;2mb\x1bPqxy\x1b\\\n<\xe2\x82\xac" * 4000


def share_streams():
    """Each part and each event goes to one of them."""
    pieces = [STREAM[at : at + 100] for at in range(0, len(STREAM), 100)]
    calls = {
        "text_of": ansi_proved.text_of,
        "text_of, safe": lambda given: ansi_proved.text_of(given, safe=True),
        "text_of, lf": lambda given: ansi_proved.text_of(given, lf=True),
        "text_of, no_hidden": lambda given: ansi_proved.text_of(given, no_hidden=True),
        "html_of": ansi_proved.html_of,
        "html_of, shown": lambda given: ansi_proved.html_of(given, shown=(80, 24), lines=True),
        "events": ansi_proved.events,
        "events of a whole": lambda given: ansi_proved.events(STREAM),
    }
    for name, call in calls.items():
        whole = collections.Counter(call(pieces))
        for _ in range(ROUNDS // 20):
            shared, found = call(pieces), [[] for _ in range(8)]
            in_threads([partial(own.extend, shared) for own in found])
            if collections.Counter(itertools.chain(*found)) != whole:
                wrong.append("%s: %d in place of %d" % (name, sum(map(len, found)), sum(whole.values())))
    assert not wrong, wrong


sys.setswitchinterval(1e-5)
{"screen": share_a_screen, "streams": share_streams}[sys.argv[1]]()
