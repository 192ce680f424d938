#!/usr/bin/env python3
"""Runs the tests of libvterm over this screen, by hand.

Usage: tests/screen/libvterm_tests.py FOLDER [FILE..]

    FOLDER    the sources of libvterm 0.1.4, as `apt-get source libvterm` or its archive leaves them
    FILE      the names of the files of tests that are run, in place of all

Each file FOLDER/t/*.test has what is fed to a screen of 80x25, and what is asked of it then: those of its questions are asked
here that are about what shows, `?cursor`, `?screen_row`, `?screen_chars`, `?screen_text`, and of `?screen_cell` the characters,
the width and the attributes. What differs, and why, is in DIFFERENCES, by the file and the line; each other answer has to be
as it stands there, and each of these another one. Up to the next reset nothing is asked after a change of the size, which a
screen here does not have. The library of the screen has to be built (`make library`).
"""

import ast
import glob
import os
import re
import sys

ROOT = os.path.dirname(os.path.dirname(os.path.dirname(os.path.abspath(__file__))))
sys.dont_write_bytecode = True
sys.path.insert(0, ROOT + "/bindings/python/src")

ASKED = ["?cursor", "?screen_row", "?screen_chars", "?screen_text", "?screen_cell"]

# why an answer is another one, by its file and its line
LEFT_OUT = "the README of ansi_screen leaves it out: "
SAVED = LEFT_OUT + "1048"
MARKS = "a cell has two marks at most"
REVERSED = "DECSCNM is not known"
ALIGNED = LEFT_OUT + "DECALN"
DIFFERENCES = {
    ("11state_movecursor.test", 178): "xterm has no HPB",
    ("11state_movecursor.test", 194): "xterm has no VPB",
    ("13state_edit.test", 81): "IL goes to the first column, as in xterm",
    ("15state_mode.test", 42): LEFT_OUT + "LNM",
    ("15state_mode.test", 72): LEFT_OUT + "left and right margins",
    ("22state_save.test", 33): SAVED,
    ("22state_save.test", 57): SAVED,
    ("22state_save.test", 64): SAVED,
    ("28state_dbl_wh.test", 27): LEFT_OUT + "double width",
    ("61screen_unicode.test", 35): MARKS,
    ("61screen_unicode.test", 41): MARKS,
    ("64screen_pen.test", 28): "a style has no font",
    ("65screen_protect.test", 9): "DECSCA is not known",
}
DIFFERENCES.update({("64screen_pen.test", line): REVERSED for line in (40, 41, 47, 51, 52)})
DIFFERENCES.update({("90vttest_01-movement-1.test", line): ALIGNED for line in range(75, 83)})


def bytes_of(perl):
    """The bytes of a literal of Perl, as these files have them: "..", and what comes so many times."""
    parts = re.fullmatch(r'"((?:[^"\\]|\\.)*)"(?:\s*x\s*(\d+))?', perl.strip())
    text = re.sub(r"\\e", r"\\x1b", parts.group(1))
    text = re.sub(r"\\x\{([0-9a-fA-F]+)\}", lambda it: "\\u%04x" % int(it.group(1), 16), text)
    text = re.sub(r"\\([$#@])", r"\1", text)
    return ast.literal_eval('"%s"' % text).encode("latin-1") * int(parts.group(2) or 1)


def characters(screen, top, left, bottom, right):
    """The characters of a part of the screen, rows with a line feed between them, without blanks at their ends."""
    rows = []
    for row in range(top, bottom):
        cells = screen.row(row)[left:right]
        while cells and cells[-1].text == " " and is_blank(screen, row, left + len(cells) - 1):
            cells.pop()
        rows.append("".join(cell.text for cell in cells))
    return "\n".join(rows)


def is_blank(screen, row, column):
    """Whether nothing was printed in a cell."""
    from ansi_proved import screen as made

    found = made.CellBytes()
    made._cell(screen._at, row, column, made.ctypes.addressof(found))
    return found.part == 0


def cell_answer(screen, row, column):
    cell = screen.cell(row, column)
    style, text = cell.style, "" if is_blank(screen, row, column) else cell.text
    letters = [(style.bold, "B"), ({"": 0, "single": 1, "double": 2}.get(style.underline, 3), "U"), (style.italic, "I"), (style.blink, "K")]
    letters += [(style.reverse, "R"), (style.struck_out, "S")]
    attributes = "".join(letter + ("%d" % on if letter == "U" else "") for on, letter in letters if on)
    return "{%s} width=%d attrs={%s}" % (",".join("0x%02x" % ord(it) for it in text), cell.width, attributes)


def answer(screen, question):
    """What the screen answers, as the harness of libvterm writes it; None where it is not asked."""
    name, *words = question.split()
    if name not in ASKED:
        return None
    numbers = [int(it) for it in words[0].split(",")] if words else []
    if name == "?cursor":
        # (there a cursor with a wrap pending stands in the last column)
        return "%d,%d" % (screen.cursor.row, min(screen.cursor.column, screen.columns - 1))
    if name == "?screen_row":
        return characters(screen, numbers[0], 0, numbers[0] + 1, 80).encode()
    if name == "?screen_chars":
        return ",".join("0x%02x" % ord(it) for it in characters(screen, *(numbers if len(numbers) == 4 else [numbers[0], 0, numbers[0] + 1, 80])))
    if name == "?screen_text":
        return ",".join("0x%02x" % it for it in characters(screen, *numbers).encode())
    return cell_answer(screen, *numbers)


class Run:
    def __init__(self, name):
        self.name, self.told, self.counts = name, [], [0, 0]
        self.begin()

    def begin(self):
        from ansi_proved import Screen

        self.screen, self.is_off = Screen(80, 25), False

    def line(self, number, line):
        repeated = re.match(r"\$(SEQ|REP)\s+(\d+)(?:\s+(\d+))?:\s*(.*)", line)
        if repeated:
            kind, first, last, rest = repeated.groups()
            values = range(int(first), int(last) + 1) if kind == "SEQ" else range(int(first))
            for value in values:
                self.line(number, rest.replace("\\#", str(value)) if kind == "SEQ" else rest)
        elif re.match(r"RESET|INIT", line):
            self.begin()
        elif line.startswith("RESIZE"):
            self.is_off = True
        elif line.startswith("PUSH"):
            self.screen.feed(bytes_of(line[4:]))
        elif line.startswith("?") and not self.is_off:
            self.ask(number, *(it.strip() for it in line.split("=", 1)))

    def ask(self, number, question, wanted):
        found = answer(self.screen, question)
        if found is None:
            return
        if question.startswith("?screen_row"):
            wanted = bytes_of(wanted)
        elif question.startswith("?screen_cell"):
            wanted = re.sub(r" dwl.*| fg=.*", "", wanted)
        known = DIFFERENCES.get((self.name, number))
        is_so = (found == wanted) != bool(known)
        self.counts[not is_so] += 1
        if known or not is_so:
            self.told.append("%s  %s:%d %s: %s, not %s%s" % ("passed" if is_so else "FAILED", self.name, number, question, found, wanted, ", since " + known if known else ""))


def main():
    if not sys.argv[1:] or sys.argv[1:] == ["--help"]:
        print(__doc__.strip())
        return 0 if sys.argv[1:] else 2
    passed = failed = 0
    for path in sorted(glob.glob(sys.argv[1] + "/t/*.test")):
        name = os.path.basename(path)
        if sys.argv[2:] and name not in sys.argv[2:]:
            continue
        run = Run(name)
        with open(path, encoding="utf-8") as file:
            for number, line in enumerate(file, 1):
                if line.strip() == "__END__":
                    break
                run.line(number, line.strip())
        print(*run.told, sep="\n", end="\n" if run.told else "")
        if sum(run.counts):
            print("passed  %s: %d answers" % (name, run.counts[0]))
        passed, failed = passed + run.counts[0], failed + run.counts[1]
    print("%d passed, %d failed" % (passed, failed))
    return 1 if failed or not passed else 0


if __name__ == "__main__":
    sys.exit(main())
