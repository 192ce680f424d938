"""What the Python package says of a screen: each cell of one that is worked by hand (tests/lib/screen_cells.py), modes and equality; and that it
gives its memory back, and leaves the interpreter to other threads. Cases of tests/screen_library."""

import ctypes
import gc
import os
import resource
import sys
import tracemalloc

from lib import screen_cells as table
from lib.numbers_told import HELD
from lib.library_shared import PYTHON, ROOT, failure, run, ticks_during

WIDTHS = {"empty": 1, "whole": 1, "left": 2, "right": 0}  # a blank is told as it looks


def words_of(style):
    on = [name for name in table.ATTRIBUTES if getattr(style, name)]
    return table.style_words(tuple(style.foreground), tuple(style.background), style.underline, on)


def told(cell):
    """A cell as rows of the table: what has no text is the right half, whose code point is that of a space."""
    return " ".join("%x" % ord(it) for it in cell.text) or "20", cell.width, cell.link, cell.goes_on, words_of(cell.style)


def wanted(cell):
    points, part, link, goes_on, words = cell
    return points, WIDTHS[part], link, bool(goes_on), words


def different(found, rows):
    """Says which of the table's cells are told otherwise."""
    wrong = [(place, it, wanted(cell)) for place, cell in rows for it in [found(*place)] if it != wanted(cell)]
    return "at %s it is %s, and not %s" % wrong[0] if wrong else None


def cell_cases(ansi):
    """The screen of the table, fed at once and byte by byte; read by each call, and once its rows have left it."""
    stream, rows = table.STREAM.encode(), table.cells()
    for name, pieces in ("at once", [stream]), ("by bytes", [stream[at : at + 1] for at in range(len(stream))]):
        screen = ansi.Screen(table.COLUMNS, table.ROWS, history=table.ROWS)
        for piece in pieces:
            screen.feed(piece)
        by_rows, at_once = [screen.row(row) for row in range(table.ROWS)], screen.cells
        yield "each cell is worked by hand, fed %s" % name, different(lambda *place: told(screen.cell(*place)), rows)
        yield "and in its row", different(lambda row, column: told(by_rows[row][column]), rows)
        yield "and among all", different(lambda row, column: told(at_once[row][column]), rows)
        yield "the cells have their types", None if {type(it) for row in at_once for it in row} == {ansi.Cell} else "others"
        found = words_of(screen.style)
        yield "the style of what comes next", None if found == table.STYLE else "it is %r" % found
        yield "the cursor", None if screen.cursor == table.CURSOR else "it is %s" % (screen.cursor,)
        found = {number: screen.link(number) for number in table.LINKS}
        yield "the links", None if found == table.LINKS else "they are %s" % found
        lines = ["".join(chr(int(it, 16)) for it in cell[0].split() if cell[1] != "right") for _, cell in rows]
        lines = ["".join(lines[row * table.COLUMNS : (row + 1) * table.COLUMNS]) for row in range(table.ROWS)]
        yield "the text of its rows", None if screen.display == lines else "it is %s" % screen.display
        screen.feed("\x1b[0m\x1b[%d;1H" % table.ROWS + table.ROWS * "\n")
        left = screen.history[:]
        yield "each cell of rows that left", different(lambda row, column: told(left[row][column]), rows)


def mode_cases(ansi):
    for stream, on, cursor in table.MODES:
        screen = ansi.Screen(4, 3)
        screen.feed(stream)
        found = {name for name in table.MODE_NAMES if getattr(screen.modes, name) is True}
        yield "modes after %r" % stream, None if found == on and set(map(type, screen.modes)) == {bool, int, str} else "they are %s" % (screen.modes,)
        is_so = screen.cursor == (*cursor, "cursor_shown" in on)
        yield "the cursor after %r" % stream, None if is_so else "it is %s" % (screen.cursor,)
    for pairs, same in (table.UNEQUAL, False), (table.EQUAL, True):
        for streams in pairs:
            one, other = (fed(ansi, it) for it in streams)
            found = one == other, other == one, not one != other, not other != one
            yield "%r and %r are %s" % (*streams, "equal" if same else "not equal"), None if set(found) == {same} else "%s" % (found,)
    for stream in "abcde", "\x1b]8;;https://a\x1b\\a":  # (README: all but links and which rows go on)
        one = fed(ansi, stream)
        for name, bytes_ in ("a drawing", one.draw()), ("an update", ansi.Screen(4, 3).update(one)):
            other = fed(ansi, bytes_)
            is_so = other.display == one.display and other.cursor == one.cursor and other != one and other.update(one) == b""
            yield "%s of %r leads to what it shows, and to no equal screen" % (name, stream), None if is_so else "it is %r" % bytes_
    one = ansi.Screen(4, 3)
    yield "screens of two sizes are not equal", "they are" if one == ansi.Screen(3, 3) or one == ansi.Screen(4, 2) else None
    yield "a screen equals no text", "it does" if one == "" or one == 5 or one is None else None


def told_cases(ansi):
    """The numbers that include/ansi_screen.h and ansi_screen(3) tell, of the bytes that calls write and of what they take."""
    from ansi_proved import screen as calls

    def cell_of(stream, row, column):
        screen, found = fed(ansi, stream), calls.CellBytes()
        calls._cell(screen._at, row, column, ctypes.addressof(found))
        return found

    first, modes, style = HELD["FIRST"], calls.ModeBytes(), calls.StyleBytes()
    screen = ansi.Screen(4, 3, history=2)
    yield "the cursor begins where is counted from", None if screen.cursor[:2] == (first, first) else "it is %s" % (screen.cursor,)
    screen.feed("\x1b[1;1Ha" + "\r\n" * 3 + "\x1b[1;2Hb\x1b[3;1H\r\n" + "\x1b[1m\x1b[?6h")
    yield "so does the oldest row", None if screen.history.row_text(first) == "a" else "it is %r" % screen.history.row_text(first)
    yield "and rows and columns", None if cell_of("xy", first, first).character == ord("x") else "it is another cell"
    calls._modes(screen._at, ctypes.addressof(modes)), calls._style(screen._at, ctypes.addressof(style))
    found = modes.origin, modes.insert, style.bold, style.dim
    yield "what is on, and what is not", None if found == 2 * (HELD["ON"], HELD["OFF"]) else "it is %s" % (found,)
    found = cell_of("abcd", 0, 3).goes_on, cell_of("abcde", 0, 3).goes_on, cell_of("a", 0, 0).link, cell_of("e\u0301\u0302\u0323", 0, 0).mark_count
    wanted = 0, HELD["GOES_ON"], HELD["NO_LINK"], HELD["MOST_MARKS"]
    yield "where a row goes on, no link, and marks", None if found == wanted else "they are %s" % (found,)
    for byte in (0x20, 0x21, 0x7E, 0x7F):
        found = fed(ansi, b"\x1b]8;;https://%c\x07a" % byte).link(1)
        wanted = "https://%c" % byte if int(HELD["LOWEST"], 16) <= byte <= int(HELD["HIGHEST"], 16) else ""
        yield "a link with the byte %02x" % byte, None if found == wanted else "it is %r" % found
    screen.feed("".join("\x1b]8;;https://%d\x07a" % number for number in range(HELD["LINKS"] + 1)))
    found = [screen.link(number) for number in (1, 2, HELD["LINKS"] + 1)]
    yield "so many links are kept", None if found == ["", "https://1", "https://%d" % HELD["LINKS"]] else "they are %s" % found
    red = {"ANY_STYLING": "light-dark(#cf222e,#ff7b72)", "LIGHT": '"color:#cf222e;"', "DARK": '"color:#ff7b72;"', "CLASSES": 'class="'}
    screen = fed(ansi, "\x1b[31ma")
    for number, words in [*((HELD[name], it) for name, it in red.items()), (4, red["ANY_STYLING"]), (255, red["ANY_STYLING"])]:
        found = screen._text_by(calls._html, number)
        yield "the styling %d" % number, None if words in found else "it is %r" % found
    done = run([sys.executable, "-c", CELL_TAKES], env=dict(os.environ, PYTHONPATH=PYTHON, PYTHONDONTWRITEBYTECODE="1"))
    is_so = not done.returncode and 0.9 < float(done.stdout) / HELD["CELL"] < 1.1
    yield "bytes that a cell of a row that left takes", None if is_so else "they are %r" % (done.stdout + done.stderr)


# The bytes of data that a million cells of rows that may leave take, in a process of their own.
CELL_TAKES = """
import ansi_proved, resource
taken = lambda: int(open("/proc/self/statm").read().split()[5]) * resource.getpagesize()
small, before = ansi_proved.Screen(1000, 2), taken()
screen = ansi_proved.Screen(1000, 2, history=1000)
print((taken() - before) / 1e6)
"""


# Streams, and what a screen of 4 columns and 3 rows has as text where rows that went on are one line with the next ones: so tmux 3.3a writes
# it (`capture-pane -J`), and tests/lib/screen_lines.py has those that left. A wide character that goes to the next row leaves a blank, which is no part of the line.
JOINED = [("abcdef", "abcdef\n"), ("ab  cd", "ab  cd\n"), ("abcd\r\nef", "abcd\nef\n"), ("ab\r\n\r\nc", "ab\n\nc\n"), ("", "")]
JOINED += [("abc\u4e2dd", "abc\u4e2dd\n"), ("a\u4e2d\u4e2dx", "a\u4e2d\u4e2dx\n")]
JOINED += [("abcde\x1b[A\rwxyz", "wxyze\n"), ("ab\u4e2de\x1b[A\rwxyz", "wxyze\n"), ("abcde\x1b[A\r\x1b[2Kwxyz", "wxyz\ne\n")]


def joined_cases(ansi):
    for stream, wanted in JOINED:
        found = fed(ansi, stream).text(joined=True)
        yield "the lines of %r" % stream, None if found == wanted else "they are %r" % found


def change_cases(ansi):
    """What can have changed, by streams one after another."""
    screen = ansi.Screen(*table.CHANGED_SIZE)
    for stream, changes in table.CHANGES:
        screen.feed(stream)
        found = screen.changes()
        yield "what can have changed after %r" % stream, None if found == changes else "it is %s" % found
    yield "of the type that it says", None if {*map(type, found)} == {ansi.Change} else "it is %s" % found
    for stream, row in ("x", 0), ("\x1b[3;9Hyz", 2), ("", None):
        screen.feed(stream)
        wanted = [row][: row is not None]
        asked = screen.changed(), screen.changes(), screen.changed(), screen.changes()
        is_so = asked[0] == wanted and [it.row for it in asked[1]] == wanted and asked[2:] == ([], [])
        yield "after %r `changes` and `changed` do not go by each other" % stream, None if is_so else "they are %s" % (asked,)
        screen.feed(stream and "\x1b[%d;2H." % (row + 1))
        asked = screen.changes(), screen.changed(), screen.changes(), screen.changed()
        is_so = asked[1] == wanted and [it.row for it in asked[0]] == wanted and asked[2:] == ([], [])
        yield "nor the other way round", None if is_so else "they are %s" % (asked,)
    screen.feed("\x1b[2;2Hx")
    copy = screen.copy()
    copy.feed("\x1b[4;1Hy")
    found = copy.changes(), screen.changes()
    yield "a copy tells what it was fed itself", None if found == ([(3, 0, 2)], [(1, 0, 3)]) else "it is %s" % (found,)
    screen.reset()
    yield "a reset may change all", None if screen.changes() == table.ALL else "it is %s" % screen.changes()


def fed(ansi, stream):
    screen = ansi.Screen(4, 3)
    screen.feed(stream)
    return screen


def memory_cases(ansi):
    """Large screens that go away, each in its way: no memory stays."""

    def used(screen):
        screen.feed("x\r\n" * 200)
        return screen

    def copied(screen):
        copy = screen.copy()
        screen.close()
        return copy

    def opened_again(screen):
        screen.__init__(200, 100)

    ways = {"let go of": used, "closed": lambda it: it.close(), "copied": copied, "ended": lambda it: it.__exit__(), "reset": lambda it: it.reset()}
    for name, way in {**ways, "drawn": lambda it: it.draw(), "made again": opened_again}.items():
        way(ansi.Screen(200, 100, history=50))
        gc.collect()
        before = resource.getrusage(resource.RUSAGE_SELF).ru_maxrss
        for _ in range(60):
            way(ansi.Screen(200, 100, history=50))
        grown = resource.getrusage(resource.RUSAGE_SELF).ru_maxrss - before
        # (a screen takes more than a megabyte)
        yield "60 screens that are %s leave no memory" % name, "%d kB" % grown if grown > 20_000 else None
    screen = ansi.Screen(80, 24, history=24)
    screen.feed(table.STREAM + "\r\n" * 30)
    calls = [lambda: screen.cells, screen.text, lambda: screen.display, screen.changed, screen.changes, screen.draw, screen.to_html]
    calls += [lambda: screen.history[:], screen.history.text, screen.history.to_html, lambda: screen.text(history=True), lambda: screen.cursor, lambda: screen.copy() == screen]
    for call in calls * 2:
        call()
    gc.collect()
    before = sys.getallocatedblocks()
    for call in calls * 100:
        call()
    gc.collect()
    grown = sys.getallocatedblocks() - before
    yield "reads leave no object behind", "%d objects" % grown if grown > 200 else None


def kept_cases(ansi):
    """Screens whose cells are all others: of cells that are kept to be given again there are so many at most."""
    tracemalloc.start()
    screen = ansi.Screen(1000, 50)
    screen.feed("".join("\x1b[38;2;%d;%d;9mx" % divmod(at, 256) for at in range(50_000)))
    found = len({cell.style for row in screen.cells for cell in row})
    kept = tracemalloc.get_traced_memory()[0]
    tracemalloc.stop()
    yield "of 50,000 cells that are others few are kept", "%d kB of %d" % (kept >> 10, found) if kept > 15 << 20 or found < 49_999 else None


def busy_cases(ansi):
    """A long call, within which another thread goes on."""
    piece = b"text \x1b[1;31m and more\r\n" * 1_000_000
    screen = ansi.Screen(80, 24)
    counted, took = ticks_during(lambda: screen.feed(piece))
    is_so = took > 30 and counted > took / 20
    yield "another thread goes on while a screen is fed", None if is_so else "it has %d turns in %d ms" % (counted, took)


def closed_cases(ansi):
    """What is said where a call can't be answered, in words."""
    screen = ansi.Screen(10, 3)
    words = [
        (TypeError, "a row is an int, and not str", lambda: screen.cell("a", 0)),
        (TypeError, "a column is an int, and not str", lambda: screen.cell(0, "a")),
        (TypeError, "a column is an int, and not float", lambda: screen.part_text(0, 0, 1.5)),
        (TypeError, "a row is an int, and not NoneType", lambda: screen.row(None)),
        (TypeError, "a row is an int, and not str", lambda: screen.row_text("0")),
        (TypeError, "the number of a row is an int, and not str", lambda: screen.history["a"]),
        (TypeError, "the number of a link is an int, and not str", lambda: screen.link("a")),
        (TypeError, "a piece is str, bytes, bytearray or memoryview, and not int", lambda: screen.feed(3)),
        (TypeError, "a piece is str, bytes, bytearray or memoryview, and not list", lambda: screen.feed([b"a"])),
        (TypeError, "an update leads to a Screen, and not to int", lambda: screen.update(3)),
        (TypeError, "a styling is a name, and not int", lambda: screen.to_html(3)),
        (TypeError, "a styling is a name, and not int", lambda: screen.history.to_html(3)),
        (ValueError, "a scheme is one of 'both', 'light', 'dark', and not 'classes'", lambda: screen.to_svg("classes")),
        (TypeError, "a title is a str, and not bytes", lambda: screen.to_svg(title=b"a")),
        (TypeError, "a font is a str, and not NoneType", lambda: screen.to_svg(font=None)),
        (TypeError, "a Screen cannot be pickled: draw() gives the bytes that show it again", lambda: __import__("pickle").dumps(screen)),
        (TypeError, "unhashable type: 'Screen'", lambda: hash(screen)),
        (IndexError, "there is no column -1 of 10", lambda: screen.cell(0, -1)),
    ]
    for error, said, call in words:
        yield "%s: %s" % (error.__name__, said), unlike(error, said, call)
    screen.close()
    reads = ["text", "cells", "display", "draw", "to_html", "to_svg", "changed", "changes", "cursor", "style", "modes", "copy", "reset"]
    reads = [(name, lambda name=name: it() if callable(it := getattr(screen, name)) else it) for name in reads]
    reads += [("row", lambda: screen.row(0)), ("cell", lambda: screen.cell(0, 0)), ("link", lambda: screen.link(1)), ("==", lambda: screen == screen)]
    reads += [("update", lambda: screen.update(screen)), ("history", lambda: len(screen.history)), ("joined", lambda: screen.text(joined=True))]
    reads += [("lines that left", lambda: screen.history.text(joined=True)), ("their HTML", lambda: screen.history.to_html())]
    for name, call in reads:
        yield "a closed screen says so: %s" % name, unlike(ValueError, "the screen is closed", call)
    yield "a closed screen is printed", None if str(screen) == "<Screen, closed>" else "it is %r" % str(screen)


def unlike(error, said, call):
    try:
        found = call()
    except Exception as other:
        return None if type(other) is error and str(other) == said else "it is %s: %s" % (type(other).__name__, other)
    return "it is %r" % (found,)


def shared_cases():
    """tests/callers/shared.py: eight threads over one screen."""
    known = dict(os.environ, PYTHONPATH=PYTHON, PYTHONDONTWRITEBYTECODE="1")
    done = run([sys.executable, "%s/tests/callers/shared.py" % ROOT, "screen"], patience=300, env=known)
    yield "eight threads share a screen, a call at a time", failure(done)


def asked_cases(ansi):
    """What was asked for, and what a program reads by it: by xterm's ctlseqs and kitty's page."""
    screen = ansi.Screen(4, 3)
    rows = [
        (lambda: (screen.title, screen.asked()), ("", set())),
        (lambda: screen.key("up") + screen.key("a", ctrl=True) + screen.key("\u00e9") + screen.key("pad_5"), b"\x1b[A\x01\xc3\xa95"),
        (lambda: screen.key("f5", shift=True) + screen.key("tab", shift=True) + screen.key("a", shift=True), b"\x1b[15;2~\x1b[ZA"),
        (lambda: screen.mouse("press", 0, 0, button="left") + screen.focus() + screen.key("a", event="release"), b""),
        (lambda: screen.paste("a\x1b[201~\n\u00e9"), b"a[201~\n\xc3\xa9"),
        (lambda: screen.feed("\x1b[?1;1003;1004;1006;2004h\x1b]2;one\u00e9\x07\x07"), None),
        (lambda: (screen.title, screen.asked()), ("one\u00e9", {"keys", "mouse", "focus", "paste", "title", "bell"})),
        (lambda: screen.key("up") + screen.key("up", ctrl=True) + screen.focus(False), b"\x1bOA\x1b[1;5A\x1b[O"),
        (lambda: screen.mouse("press", 2, 4, button="wheel_up", alt=True) + screen.mouse("move", 0, 0), b"\x1b[<72;5;3M\x1b[<35;1;1M"),
        (lambda: screen.mouse("release", 0, 299, button="right"), b"\x1b[<2;300;1m"),
        (lambda: screen.paste("a" * 9000), b"\x1b[200~" + b"a" * 9000 + b"\x1b[201~"),
        (lambda: screen.modes[5:], (True, 0, "motion", "sgr", True, True, False, False, "", False)),
        (lambda: screen.feed("\x1b[>11u\x1b[?1003;1006l\x1b[?5;2026h\x1b[4 q"), None),
        (lambda: screen.key("a", event="release", super=True) + screen.key("enter"), b"\x1b[97;9:3u\x1b[13u"),
        (lambda: screen.modes[5:], (True, 11, "", "", True, True, True, True, "underline", False)),
        (lambda: (screen.reset(), screen.title, len(screen.asked())), (None, "", 13)),
    ]
    for number, (told, wanted) in enumerate(rows):
        found = told()
        yield "what is asked for, row %d" % number, None if found == wanted else "it is %r, and not %r" % (found, wanted)
    wrong = [lambda: screen.key("upp"), lambda: screen.key(""), lambda: screen.key("a", event="up"), lambda: screen.mouse("press", 0, 0, button="l")]
    wrong += [lambda: screen.key("a", control=True), lambda: screen.paste(b"a"), lambda: screen.mouse("click", 0, 0)]
    for number, call in enumerate(wrong):
        try:
            found = call()
        except (TypeError, ValueError) as error:
            found = None if str(error) else "with no words"
        yield "what is no key, mouse or paste, row %d" % number, found


# What is sent to a screen of 20 columns and 6 rows, and what it answers: by xterm's ctlseqs and the VT510 manual.
ANSWERS = [
    ("", b""), ("\x1b[3;5H\x1b[6n", b"\x1b[3;5R"), ("\x1b[5n\x1b[?6n", b"\x1b[0n\x1b[?3;5;1R"), ("\x1b[c\x1b[>c\x1b[=c", b"\x1b[?62;22c\x1b[>1;10;0c\x1bP!|00000000\x1b\\"),
    ("\x1b[?2026$p\x1b[?2026h\x1b[?2026$p\x1b[4$p\x1b[?9999$p", b"\x1b[?2026;2$y\x1b[?2026;1$y\x1b[4;2$y\x1b[?9999;0$y"), ("\x1b[18t", b"\x1b[8;6;20t"),
    ("\x1bP$qm\x1b\\\x1b[1;31m\x1bP$qm\x1b\\\x1bP$qr\x1b\\\x1bP$qx\x1b\\", b"\x1bP1$r0m\x1b\\\x1bP1$r0;1;31m\x1b\\\x1bP1$r1;6r\x1b\\\x1bP0$r\x1b\\"),
    ("\x1b[>3u\x1b[?u", b"\x1b[?3u"), ("\x1b]11;?\x07\x1b]10;?\x07\x1b]4;1;?\x07", b""), ("\x1b]2;rm -rf\x07\x1b[20t\x1b[21t\x1b]0;?\x07\x1b[2n", b""),
    ("\x1b]11;rgb:12/34/56\x07\x1b]11;?\x1b\\", b"\x1b]11;rgb:1212/3434/5656\x1b\\"), ("\x1b[m\x1b[1;1H\x1b[2J\x1b[6", b""), ("n", b"\x1b[1;1R"),
]  # fmt: skip


def answer_cases(ansi):
    """What is answered: once, in whatever pieces; the oldest is lost where more wait than can; and colours as they are told."""
    for is_cut in (False, True):
        screen = ansi.Screen(20, 6)
        for stream, wanted in ANSWERS:
            for piece in stream if is_cut else [stream]:
                screen.feed(piece)
            found = screen.answers(), screen.answers(), screen.answers_lost
            yield "answers to %r" % stream, None if found == (wanted, b"", False) else "they are %s" % (found,)
    screen.feed("\x1b[5n" * 3 + "\x1b[c" * 64)
    copy = screen.copy()
    found = screen.answers(), screen.answers_lost, screen.answers(), screen.answers_lost, copy.answers(), copy.answers_lost
    wanted = b"\x1b[?62;22c" * 64, True, b"", False, b"\x1b[?62;22c" * 64, True
    yield "64 answers wait at most, and in a copy too", None if found == wanted else "they are %s" % (found,)
    screen.feed("\x1b[5n")
    screen.colors((1, 2, 255), palette={7: (0, 16, 32)})
    screen.reset()
    screen.feed("\x1b]10;?\x07\x1b]11;?\x07\x1b]12;?\x07\x1b]4;7;?\x07\x1b]4;8;?\x07\x1b]4;7;#ffffff\x07\x1b]4;7;?\x07")
    found, wanted = screen.answers(), b"\x1b]10;rgb:0101/0202/ffff\x07\x1b]4;7;rgb:0000/1010/2020\x07\x1b]4;7;rgb:ffff/ffff/ffff\x07"
    yield "a reset forgets answers, and leaves the terminal's own colours", None if found == wanted else "they are %r" % found
    screen.colors(background=(3, 4, 5), cursor=(6, 7, 8))
    screen.feed("\x1b]10;?\x07\x1b]11;?\x07\x1b]12;?\x07")
    found, wanted = screen.answers(), b"\x1b]11;rgb:0303/0404/0505\x07\x1b]12;rgb:0606/0707/0808\x07"
    yield "colours are told in place of those before", None if found == wanted else "they are %r" % found
    for number, call in enumerate((lambda: screen.colors((1, 2)), lambda: screen.colors((1, 2, 256)), lambda: screen.colors(palette={256: (1, 2, 3)}))):
        try:
            found = call() or "it is taken"
        except ValueError as error:
            found = None if str(error) else "with no words"
        yield "what is no colour, row %d" % number, found


def cases(ansi):
    for part in (told_cases, cell_cases, mode_cases, asked_cases, answer_cases, joined_cases, change_cases, memory_cases, kept_cases, busy_cases, closed_cases):
        yield from part(ansi)
    yield from shared_cases()
