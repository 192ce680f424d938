"""The streams of tests/costs beside those of bench/measure.py: lines, frames, and what scrolls a full screen.

They are made of a seed, and are the same in each run. The frames are such as crates/workloads makes for `frames`.
"""

import random
import string

COLUMNS, ROWS = 120, 40
LINE = 80  # bytes of a line, with its line feed
STYLES = [
    *["0", "1", "31", "32", "33", "36", "1;31", "1;32", "1;33", "2", "4:3", "7", "38;5;208", "48;5;24"],
    *["38;2;255;0;17", "1;38;5;33;48;5;231"],
]
FOREIGN = ["größe", "été", "Übung", "señal", "的一是在", "不了有和人", "🚀🎉", "│─└├──"]


def words(pick, count):
    """So many words, each with a space behind it."""
    return "".join("".join(pick.choice(string.ascii_lowercase) for _ in range(pick.randint(2, 9))) + " " for _ in range(count))


def position(row, column):
    return "\x1b[%d;%dH" % (row, column)


# ------------------------------------------------------------------ lines


def plain_line(pick):
    """Words, of 80 bytes with the line feed."""
    return words(pick, 27)[: LINE - 1] + "\n"


def coloured_line(pick):
    """The same with a level in colours and a word in bold, as logs have it."""
    level = "\x1b[%sm%s\x1b[0m " % pick.choice([("32", "INFO"), ("33", "WARN"), ("1;31", "ERROR")])
    line = level + words(pick, 3) + "\x1b[1m" + words(pick, 1).strip() + "\x1b[m " + words(pick, 12)
    return line[: LINE - 1] + "\n"


LINES = [plain_line, coloured_line]

# ------------------------------------------------------------------ frames


def words_at(pick, row):
    """Words of one style, somewhere in a row."""
    text = [pick.choice(FOREIGN), words(pick, 6), words(pick, 2), words(pick, 2)][pick.randrange(4)]
    return position(row, pick.randint(1, 100)) + "\x1b[%sm" % pick.choice(STYLES) + text


def part_of_row(pick, row):
    """Such words; where they end, the rest of one row in four is erased."""
    return words_at(pick, row) + ("\x1b[K" if pick.randrange(4) == 0 else "") + "\x1b[m"


def frame(pick):
    """What a full-screen program writes at once: parts of a row and of those below it, in one of three frames a line of
    status, and the cursor, which is hidden meanwhile."""
    first = pick.randint(1, 34)
    rows = list(range(first, first + pick.randint(2, 6))) + ([ROWS] if pick.randrange(3) == 0 else [])
    parts = "".join(part_of_row(pick, row) for row in rows)
    return "\x1b[?25l" + parts + position(first, pick.randint(1, 100)) + "\x1b[?25h"


def frames(count):
    """So many frames, each to be handed on by itself."""
    pick = random.Random(7)
    return [frame(pick).encode() for _ in range(count)]


# ------------------------------------------------------------------ scrolls


def full():
    """A screen full of words, in two styles."""
    pick = random.Random(7)
    rows = [words(pick, 20)[: COLUMNS - 1] for _ in range(ROWS)]
    return "".join("%s\x1b[%dm%s" % (position(row + 1, 1), row % 2, text) for row, text in enumerate(rows)).encode()


# What comes first, and what scrolls again and again.
SCROLLS = {
    "RI": (position(1, 1), "\x1bM"),
    "IL in the first row": (position(1, 1), "\x1b[L"),
    "IL in the midst": (position(20, 1), "\x1b[L"),
    "DL in the first row": (position(1, 1), "\x1b[M"),
    "a line of text within margins": ("\x1b[1;39r" + position(39, 1), "words of a line\r\n"),
    "RI within margins": ("\x1b[1;39r" + position(1, 1), "\x1bM"),
    "SU": ("", "\x1b[S"),
    "SD": ("", "\x1b[T"),
}


def scroll(name, count):
    """A full screen, and what scrolls it so many times."""
    begin, again = SCROLLS[name]
    return full() + (begin + again * count).encode()
