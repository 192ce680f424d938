"""What `--shown` must write: each row is worked by hand from the rules of a screen."""

from lib.hostile_streams import text, times
from lib.log_rows import BEGUN_ROWS, READ_ROWS

CLEAR = b"\x1b[H\x1b[2J\x1b[3J"
BOX = "┌─┐\n│ │\n└─┘\n".encode()

# What a person sees, with what scrolled off, on a terminal of 80x24.
SHOWN_ROWS = [
    ("overstruck", b"B\bB\bo\bo", b"o\n"),
    ("back and over", b"abc\b\b\bxyz", b"xyz\n"),
    ("progress", b"10%\r20%\r\x1b[K100%", b"100%\n"),
    ("a move forward", b"foo\x1b[10Cbar", b"foo          bar\n"),
    ("hidden text", b"a\x1b[8mb\x1b[28mc\n", b"abc\n"),
    ("lines drawn in ASCII", b"+-+\n| |\n+-+\n", b"+-+\n| |\n+-+\n"),
    ("line drawing", b"\x1b(0lqk\nx x\nmqj\x1b(B\n", BOX),
    ("lines that scroll off", b"a\r\nb\n" * 500 + b"c", b"a\nb\n" * 500 + b"c\n"),
    ("a line longer than the screen", b"a" * 5000 + b"\nb\n", b"a" * 5000 + b"\nb\n"),
    ("a line as long as a row", b"a" * 80 + b"\r\nb\r\n", b"a" * 80 + b"\nb\n"),
    ("a wide character for which the row has no room", b"a" * 79 + "漢\n".encode(), b"a" * 79 + "漢\n".encode()),
    ("a row that went on and is rewritten", b"a" * 81 + b"\x1b[1;80Hb\x1b[2Hc", b"a" * 79 + b"bc\n"),
    ("a row that went on and is erased", b"a" * 81 + b"\x1b[1;9H\x1b[K", b"a" * 8 + b"\na\n"),
    ("a row in which the one above went on, erased by EL 0", b"a" * 81 + b"\r\x1b[Kb", b"a" * 80 + b"\nb\n"),
    ("by EL 2", b"a" * 81 + b"\x1b[2K\rb", b"a" * 80 + b"\nb\n"),
    ("by EL 1", b"a" * 81 + b"\x1b[1K\rb", b"a" * 80 + b"\nb\n"),
    ("by EL 1, in part", b"a" * 80 + b"bcd\x08\x08\x1b[1K", b"a" * 80 + b"\n  d\n"),
    ("by ED 0", b"a" * 81 + b"\r\x1b[Jb", b"a" * 80 + b"\nb\n"),
    ("behind its first column, by EL 0", b"a" * 80 + b"bc\x08\x1b[K", b"a" * 80 + b"b\n"),
    ("behind its first column, by ED 0", b"a" * 80 + b"bc\x08\x1b[J", b"a" * 80 + b"b\n"),
    ("a bar wider than the screen, again and again", (b"\r\x1b[K" + b"=" * 85) * 3 + b"\n", (b"=" * 80 + b"\n") * 2 + b"=" * 85 + b"\n"),
    ("characters deleted and inserted", b"a" * 81 + b"\x1b[1H\x1b[P\x1b[@", b" " + b"a" * 79 + b"\na\n"),
    ("blanks that were printed, and others", b"a  \nb\x1b[9C\nc\td\t\n", b"a  \nb\nc       d\n"),
    ("blank lines", b"a\n\n\nb\n\n\n", b"a\n\n\nb\n"),
    ("the alternate screen", b"a\n\x1b[?1049h" + b"b\n" * 99 + b"\x1b[?1049lc\n", b"a\nc\n"),
    ("margins below the top", b"a\n\x1b[2;24r\x1b[24H" + b"\n" * 99 + b"c", b"a\n" + b"\n" * 22 + b"c\n"),
    ("more rows than there are", b"a\nb\x1b[65535Sc", b"a\nb\n" + b"\n" * 23 + b" c\n"),
    ("rows deleted at the top", b"a\nb\x1b[H\x1b[M", b"b\n"),
    ("a screen that ED 2 erases leaves first", b"a\n\x1b[2J\x1b[Hb", b"a\nb\n"),
    ("one that clear erases, by ED 2 and ED 3", b"a\n\n b\n" + CLEAR + b"c", b"a\n\n b\nc\n"),
    ("clear on a blank screen", CLEAR * 2 + b"a" + CLEAR * 2 + b"b", b"a\nb\n"),
    ("one that ED 3 and ED 2 erase, once", b"a\x1b[3J\x1b[2J\x1b[2Jb", b"a\n b\n"),
    ("one that is redrawn by ED 2", b"\x1b[2J\x1b[H1\x1b[2J\x1b[H2\x1b[2J\x1b[H3", b"1\n2\n3\n"),
    ("a screen that ED 0 or ED 1 erases is lost", b"a\nb\x1b[1J\x1b[H\x1b[Jc", b"c\n"),
    ("rows that ED 2 erases after some that scrolled off", b"a\n" * 30 + b"\x1b[2Jb", b"a\n" * 30 + b"\n" * 23 + b"b\n"),
    ("one that clear erases, by ED 0, where a terminal has no ED 2", b"FAILED\r\n\x1b[H\x1b[Jx", b"FAILED\nx\n"),
    ("one that ED 0 erases in its second column", b"ab\nc\x1b[1;2H\x1b[Jd", b"ad\n"),
    ("one that ED 0 erases in its second row", b"a\nb\r\x1b[Jc", b"a\nc\n"),
    ("the alternate screen, erased by ED 0", b"a\n\x1b[?1049h\x1b[Hb\r\x1b[Jc\x1b[?1049ld", b"a\nd\n"),
    ("a screen that RIS erases leaves first", b"a\nb\x1bcc", b"a\nb\nc\n"),
    ("the alternate screen at the end", b"step 2 FAILED\n\x1b[?1049hhtop", b"step 2 FAILED\n\nhtop\n"),
    ("the alternate screen, erased by ED 2", b"a\n\x1b[?1049hb\x1b[2J\x1b[Hc\x1b[?1049ld", b"a\nd\n"),
    ("RIS on the alternate screen", b"a\n\x1b[?1049hb\x1bcc", b"a\nc\n"),
    ("the alternate screen with nothing on it", b"a\n\x1b[?1049h", b"a\n"),
    *READ_ROWS,
    *((name, given, text + b"\n") for name, given, text in BEGUN_ROWS),
    ("colours, titles and a broken character", b"\x1b[31m\x1b]0;t\x07a\xc3\x1b[mb\n", b"a\xef\xbf\xbdb\n"),
]



def recording(columns, lines, before=b"Script started on 2026-11-28 07:00:00+00:00 [TERM=\"xterm\""):
    """The first line of a recording by script(1) of a terminal of this size."""
    return b'%s COLUMNS="%d" LINES="%d"]\n' % (before, columns, lines)


# On a screen of 20 columns the bar is a line each time that it is drawn, on wider ones it is drawn over.
BAR, BAR_ON_20, BAR_ON_MORE = b"a" * 25 + b"\r\x1b[Kb\n", b"a" * 20 + b"\nb\n", b"b\n"


def recorded(name, first, text):
    return name, first + BAR, first + text


GERMAN = 'Skript gestartet am 2026-11-28, für [COMMAND="ls"'.encode()
SAID_TWICE = b'Script started on 2026-11-28 [COMMAND="echo COLUMNS="9" LINES="3"]"'
ENDS_LATER = recording(20, 6)[:-1]

# The same where no size is given: of the size that the first line says, or of 1,000 columns and 100 rows.
SHOWN_USUAL_ROWS = [
    ("a line of more than 80 columns, erased", b"a" * 81 + b"\r\x1b[Kb\n", b"b\n"),
    ("a line of 1,000 columns, erased", b"a" * 999 + b"\r\x1b[Kb\n", b"b\n"),
    ("one of 1,001 columns, erased in its second row", b"a" * 1001 + b"\r\x1b[Kb\n", b"a" * 1000 + b"\nb\n"),
    ("a line of 5,000 columns", b"a" * 5000 + b"\nb\n", b"a" * 5000 + b"\nb\n"),
    ("colours at the 80th column", b"a" * 79 + b"\x1b[1mb\x1b[m\x1b[Kc\n", b"a" * 79 + b"bc\n"),
    ("as many lines as rows, written over", b"a" + b"\n" * 99 + b"\x1b[Hb\n", b"b\n"),
    ("one more, of which the first has left", b"a" + b"\n" * 100 + b"\x1b[Hb\n", b"a\nb\n"),
    recorded("a recording", recording(20, 6), BAR_ON_20),
    ("the rows of a recording", recording(80, 3) + b"a\n\n\x1b[Hb", recording(80, 3) + b"b\n"),
    recorded("a recording in German", recording(20, 6, GERMAN), BAR_ON_20),
    recorded("one of a command that says another", recording(20, 6, SAID_TWICE), BAR_ON_20),
    recorded("one of a terminal of 1,000x1,000", recording(1000, 1000), BAR_ON_MORE),
    # (the row above has left when EL erases the first cell of the last one: its line goes on)
    recorded("one of the least terminal", recording(2, 1), b"a" * 24 + b"b\n"),
    recorded("one of no terminal", b"Script started on 2026-11-28 [COMMAND=\"ls\" <not executed on terminal>]\n", BAR_ON_MORE),
    recorded("one of too many rows", recording(20, 1001), BAR_ON_MORE),
    recorded("one of too many columns", recording(65556, 6), BAR_ON_MORE),
    recorded("one of more than all numbers of a machine", recording((1 << 64) + 20, 6), BAR_ON_MORE),
    recorded("one of one column", recording(1, 6), BAR_ON_MORE),
    recorded("one of no row", recording(20, 0), BAR_ON_MORE),
    recorded("one without a number", recording(20, 6).replace(b"20", b""), BAR_ON_MORE),
    recorded("a size in the second line", b"a\n" + recording(20, 6), BAR_ON_MORE),
    recorded("a size in the midst of a line", ENDS_LATER + b" \n", BAR_ON_MORE),
    ("a first line of 4,095 bytes", recording(20, 6, b"b" * (4096 - 25)) + BAR, recording(20, 6, b"b" * (4096 - 25)) + BAR_ON_20),
    recorded("a first line that is longer", recording(20, 6, b"b" * 4097), BAR_ON_MORE),
    ("a first line that is all", ENDS_LATER, ENDS_LATER + b"\n"),
    ("that line, and more before its line feed", ENDS_LATER + BAR, b"b\n"),
]

WIDE = "漢".encode()

# The same of a screen of 20x6.
SHOWN_NARROW_ROWS = [
    ("a bar wider than the screen", b"a" * 25 + b"\r\x1b[Kb\n", b"a" * 20 + b"\nb\n"),
    ("one of the width of the screen", b"a" * 20 + b"\r\x1b[Kb\n", b"b\n"),
    ("EL at a pending wrap", b"a" * 19 + b"b\x1b[Kc\n", b"a" * 19 + b"c\n"),
    # (so tmux 3.3a has them too, by `capture-pane -J`)
    ("a row that wrapped, and is written over", b"a" * 21 + b"\x1b[A\r" + b"b" * 20 + b"\n", b"b" * 20 + b"a\n"),
    ("one that ends in a wide character", b"a" * 18 + WIDE + b"a\x1b[A\r" + b"b" * 20 + b"\n", b"b" * 20 + b"a\n"),
    ("wide characters over it", b"a" * 21 + b"\x1b[A\r" + WIDE * 10 + b"\n", WIDE * 10 + b"a\n"),
    ("characters that are repeated over it", b"a" * 21 + b"\x1b[A\rb\x1b[19b\n", b"b" * 20 + b"a\n"),
    ("a row that is erased first", b"a" * 21 + b"\x1b[A\r\x1b[2K" + b"b" * 20 + b"\n", b"b" * 20 + b"\na\n"),
    # (tmux has a space where the other half was)
    ("half of a wide character at its end", b"a" * 18 + WIDE + b"a\x1b[A\x1b[19Gb\n", b"a" * 18 + b"ba\n"),
]

SCROLLS = 2_000_000  # the bytes of a stream of which each few move a whole screen


def line_of(unit, count):
    return lambda: [unit * count, b"\n"]


def shown_hostile(rows):
    """On a screen of so many rows: by line feeds alone blank rows scroll off, from the last on; those that still show are left out."""
    return [
        ("line feeds", times(b"\n", SCROLLS), times(b"\n", SCROLLS - (rows - 1))),
        ("one line that wraps", times(b"a", SCROLLS), line_of(b"a", SCROLLS)),
        ("wide characters", times(WIDE, SCROLLS // 3), line_of(WIDE, SCROLLS // 3)),
        ("SU of 65535", times(b"\x1b[65535S", SCROLLS // 8), times(b"\n", rows * (SCROLLS // 8))),
        ("resets", times(b"A\x1bc", SCROLLS // 3), times(b"A\n", SCROLLS // 3)),
        ("screens that are erased", times(b"A\x1b[2J\r", SCROLLS // 6), times(b"A\n", SCROLLS // 6)),
        ("the alternate screen", times(b"\x1b[?1049hA\x1b[?1049l", SCROLLS // 17), text(b"")),
    ]
