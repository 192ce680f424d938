"""Where libvterm 0.1.4 shows something else than tests/screen/twin.py, and streams that leave it out.

    agreed(operations, width, height)   a stream of these operations, on which both must show the same

DIFFERENCES has a row for each: what libvterm does, a smallest stream that shows it, where an operation does it, and what is given in
the operation's place. The comment above it says what shows, on 20x6: `b at 2;1` stands in row 2, column 1. xterm shows what stands
under "here", but for the British set, the last DECRC, 1049 set again, and marks, which it does not tell. docs/COMPARED.md has some.
"""

import copy
import re

import twin

OPERATION = re.compile(r"\x1b\[[0-?]*[ -/]*[@-~]|\x1b\][^\x07]*\x07|\x1b[ -/]*[0-~]|.", re.S)


class Screen(twin.Display):
    """A display that tells whether it has cut a wide character."""

    has_cut = False

    def cut(self, at):
        self.has_cut |= 0 < at < len(self.cells) and self.cells[at][1] == twin.RIGHT
        super().cut(at)

    def after(self, operation):
        screen = copy.copy(self)
        screen.cells, screen.hidden, screen.tabs = [*self.cells], [*self.hidden], [*self.tabs]
        screen.cursor, screen.has_cut = self.cursor.copy(), False
        twin.feed(screen, operation.encode())
        return screen


class Moment:
    """An operation, the screen before it and after it, and the text that it stands behind."""

    def __init__(self, screen, text, it):
        self.screen, self.text, self.it, self.after = screen, text, it, screen.after(it)
        self.row, self.column = screen.cursor.row, screen.cursor.column
        self.is_pending = self.column == screen.width
        self.is_inside = screen.top <= self.row < screen.bottom
        self.is_character = len(it) == 1 and it >= " "
        self.columns = twin.columns(it) if self.is_character else None
        self.is_drawn = screen.cursor.draws[screen.cursor.shift] and it in twin.DRAWN
        self.saves, self.restores = it in ("\x1b7", "\x1b[?1049h"), it in ("\x1b8", "\x1b[?1049l")
        self.saved = screen.hidden_saved if screen.is_alternate and it != "\x1b8" else screen.saved
        found = re.fullmatch(r"\x1b\[(\d*)(?:;(\d*))?[\d;:]*([@-~])", it)
        self.first, self.second, self.final = found.groups() if found else ("", "", "")
        self.number = int(self.first or 0)

    def ends(self, finals):
        return self.final != "" and self.final in finals

    def edits(self):
        return self.ends("@PXLM") or self.ends("JK") and self.number < 3

    def stays_in_row(self):
        return self.it in ("\n", "\v", "\f", "\x1bD", "\x1bM") and self.after.cursor.row == self.row

    def is_on_wide(self):
        return self.is_pending and self.screen.cells[self.screen.row_end() - 1][1] == twin.RIGHT

    def has_no_room(self):
        return self.columns == 2 and not self.screen.wraps and self.column + 2 > self.screen.width

    def marks(self):
        """How many marks the character before it has."""
        return len(self.text) - len(self.text.rstrip("".join(c for c in self.text if twin.columns(c) == 0)))

    def repeats(self, columns):
        return self.ends("b") and self.screen.last is not None and twin.columns(self.screen.last) in columns

    def is_stopped(self):
        """Whether it goes up or down less far than it would without margins."""
        screen, rows = self.screen, max(1, self.number)
        first, last = (screen.top, screen.bottom - 1) if screen.cursor.is_relative else (0, screen.height - 1)
        row = self.row - rows if self.ends("AF") else self.row + rows
        return self.ends("ABEF") and self.after.cursor.row != max(first, min(row, last))

    def is_no_region(self):
        """Whether it gives a region of a row or less, or 0 for the last row."""
        height = self.screen.height
        return self.ends("r") and min(int(self.second or height), height) <= max(1, self.number)

    def has_others_saved(self):
        of = lambda place: (place.is_relative, place.draws, place.shift)
        return self.restores and of(self.saved) != of(self.screen.cursor)

    def switches(self):
        """What leads to the origin mode and the character sets that are saved."""
        place = self.saved
        sets = "".join(mark + "B0"[draws] for mark, draws in zip(("\x1b(", "\x1b)"), place.draws))
        return "\x1b[?6" + "lh"[place.is_relative] + sets + "\x0f\x0e"[place.shift]

    def goes_outside(self):
        inside = self.screen.top <= self.saved.row < self.screen.bottom
        return self.restores and self.saved.is_relative and not inside

    def modes(self):
        """A sequence for each mode, where it sets or resets several."""
        found = re.fullmatch(r"\x1b\[(\??)(\d+(?:;\d+)+)([hl])", self.it)
        mark, fields, final = found.groups() if found else ("", "", "")
        return "".join("\x1b[%s%s%s" % (mark, field, final) for field in fields.split(";") if field)


LEFT_OUT = lambda at: ""
A_LETTER = lambda at: "x"
AFTER_MOVE = lambda at: "\x1b[%dG" % at.screen.width + at.it
AFTER_RETURN = lambda at: "\r" + at.it
AFTER_BELL = lambda at: "\a" + at.it
BEFORE_MOVE = lambda at: at.it + "\x1b[%dG" % at.screen.width
BEFORE_RETURN = lambda at: at.it + "\r"

DIFFERENCES = [
    # here: b at 1;20; libvterm: b at 2;1
    ("edits keep a pending wrap", "\x1b[20Ga\x1b[Kb",
     lambda at: at.is_pending and at.edits(), AFTER_MOVE),
    # here: a at 5;20, b at 6;20; libvterm: a at 4;20, b at 6;1
    ("line feeds and RI that stay in the row keep it", "\x1b[6;20Ha\nb",
     lambda at: at.is_pending and at.stays_in_row(), AFTER_MOVE),
    # here: a at 1;20, b at 2;1; libvterm: b at 1;20
    ("DECSC and 1049 do not save it", "\x1b[20Ga\x1b7\x1b[H\x1b8b",
     lambda at: at.is_pending and at.saves, AFTER_MOVE),
    # here: b at 1;20; libvterm: a at 1;20, b at 2;1
    ("DECRC and 1049 that stay in the column keep it", "\x1b[20G\x1b7a\x1b8b",
     lambda at: at.is_pending and at.restores, AFTER_RETURN),
    # here: b at 1;20; libvterm: a at 1;20, b at 2;1
    ("it wraps where DECAWM was reset since", "\x1b[20Ga\x1b[?7lb",
     lambda at: at.is_pending and at.it == "\x1b[?7l", AFTER_MOVE),
    # here: a at 1;20, b at 2;1; libvterm: b at 1;20
    ("without DECAWM none is pending", "\x1b[?7l\x1b[20Ga\x1b[?7hb",
     lambda at: at.is_pending and at.it == "\x1b[?7h", AFTER_MOVE),
    # here: 漢 at 1;19, b at 2;20; libvterm: 漢 at 1;19, b at 2;19
    ("at the end of a row the cursor stays on a wide character", "\x1b[19G漢\nb",
     lambda at: at.is_on_wide() and not at.is_character, AFTER_MOVE),
    # here: x at 1;2; libvterm: 漢x
    ("half of a wide character stays", "漢\bx",
     lambda at: at.after.has_cut, LEFT_OUT),
    # here: 漢ab; libvterm: 漢b
    ("a wide character inserts one column", "ab\r\x1b[4h漢",
     lambda at: at.columns == 2 and at.screen.inserts, A_LETTER),
    # here: nothing; libvterm: 漢 at 2;1
    ("a wide character wraps without DECAWM too", "\x1b[?7l\x1b[20G漢",
     lambda at: at.has_no_room(), LEFT_OUT),
    # here: áb; libvterm: á
    ("a mark after a move is written over the cell", "ab\b\u0301",
     lambda at: at.columns == 0 and not at.text, LEFT_OUT),
    # here: á at 1;20; libvterm: a at 1;20, U+0301 at 2;1
    ("so is a mark after the last column", "\x1b(B\x1b[20Ga\u0301",
     lambda at: at.columns == 0 and at.is_pending, LEFT_OUT),
    # here: á̂; libvterm: ạ́̂
    ("a cell keeps five marks", "a\u0301\u0302\u0323",
     lambda at: at.columns == 0 and at.marks() == twin.Display.MARKS, LEFT_OUT),
    # here: abc; libvterm: ac, U+0085
    ("U+0080 to U+009F go back a column", "ab\x85c",
     lambda at: "\x80" <= at.it <= "\x9f", LEFT_OUT),
    # here: 漢─; libvterm: 漢q
    ("after a character that is not ASCII no line is drawn", "\x1b(0漢q",
     lambda at: at.is_drawn and not at.text.isascii(), AFTER_BELL),
    # here: ≤; libvterm: ⩽
    ("of line drawing _ y z are others", "\x1b(0y",
     lambda at: at.is_drawn and at.it in "_yz", A_LETTER),
    # here: #; libvterm: £
    ("there is a British set", "\x1b(A#",
     lambda at: at.it in ("\x1b(A", "\x1b)A"), LEFT_OUT),
    # here: a; libvterm: aa
    ("REP repeats what was ever printed, or without it hangs", "a\a\x1b[b",
     lambda at: at.ends("b") and not at.screen.last, LEFT_OUT),
    # here: 漢漢漢; libvterm: 漢漢
    ("REP counts columns of wide characters", "漢\x1b[2b",
     lambda at: at.repeats([2]), LEFT_OUT),
    # here: ccab; libvterm: ccb
    ("REP does not insert", "ab\r\x1b[4hc\x1b[b",
     lambda at: at.repeats([1]) and at.screen.inserts, LEFT_OUT),
    # here: 19 a, then b; libvterm: 19 a, b at 2;1
    ("REP that leaves one column free wraps", "a\x1b[18bb",
     lambda at: at.repeats([1]) and at.after.cursor.column == at.screen.width - 1, BEFORE_MOVE),
    # here: c, ab at 2;1; libvterm: c at 1;3, ab at 2;1
    ("IL and DL stay in the column", "ab\x1b[Lc",
     lambda at: at.ends("LM") and at.is_inside, BEFORE_RETURN),
    # here: a at 1;2; libvterm: a
    ("ICH and DCH do nothing outside the margins", "\x1b[2ra\r\x1b[@",
     lambda at: at.ends("@P") and not at.is_inside, LEFT_OUT),
    # here: a at 2;1; libvterm: a
    ("CUU, CUD, CNL and CPL do not stop at margins", "\x1b[2r\x1b[2H\x1b[Aa",
     lambda at: at.is_stopped(), LEFT_OUT),
    # here: ab; libvterm: b
    ("DECSTBM takes one row, and all rows for less", "a\x1b[2;2rb",
     lambda at: at.is_no_region(), LEFT_OUT),
    # here: q; libvterm: ─
    ("DECRC keeps origin mode and character sets", "\x1b(0\x1b8q",
     lambda at: at.has_others_saved(), lambda at: at.switches() + at.it),
    # here: a at 2;1; libvterm: a
    ("DECRC goes outside the margins in origin mode", "\x1b[?6h\x1b7\x1b[2r\x1b8a",
     lambda at: at.goes_outside(), LEFT_OUT),
    # here: a; libvterm: a at 2;1
    ("DECSC and 1049 save in one place", "\x1b[?1049h\x1b[2H\x1b7\x1b[?1049la",
     lambda at: at.screen.is_alternate and at.it in ("\x1b7", "\x1b8"), LEFT_OUT),
    # here: ab; libvterm: b at 1;2
    ("1049 clears and saves where it shows already", "\x1b[?1049ha\x1b[?1049hb",
     lambda at: at.screen.is_alternate and at.it == "\x1b[?1049h", LEFT_OUT),
    # here: a; libvterm: a at 2;1
    ("RIS keeps the alternate screen and what is saved", "\x1b[2H\x1b7\x1bc\x1b8a",
     lambda at: at.it == "\x1bc", lambda at: "\x1b[?1049l\x1bc\x1b7"),
    # here: cb; libvterm: cab
    ("DECSTR does nothing", "ab\r\x1b[4h\x1b[!pc",
     lambda at: at.it == "\x1b[!p", LEFT_OUT),
    # here: cab; libvterm: cb
    ("of several modes the first counts", "ab\r\x1b[5;4hc",
     lambda at: at.modes(), lambda at: at.modes()),
    # here: a at 1;9; libvterm: a at 1;20
    ("TBC 5 clears all stops", "\x1b[5g\ta",
     lambda at: at.ends("g") and at.number == 5, LEFT_OUT),
]


class Stream:
    """A stream as it is written, and the screen that it comes to."""

    def __init__(self, width, height):
        self.screen, self.text, self.given = Screen(width, height), "", ""

    def write(self, operations, differences):
        """What is given in an operation's place can show the other differences."""
        for it in OPERATION.findall(operations):
            at = Moment(self.screen, self.text, it)
            shown = next((row for row in differences if row[2](at)), None)
            if shown:
                self.write(shown[3](at), [row for row in differences if row is not shown])
            else:
                self.screen, self.given = at.after, self.given + it
                self.text = self.text + it if at.columns is not None else ""


def agreed(operations, width, height):
    stream = Stream(width, height)
    stream.write(operations, DIFFERENCES)
    return stream.given
