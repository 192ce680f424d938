"""A screen with every attribute, kind of colour and underline, mark, half, link, mode and cursor, and what each of its cells is: worked
by hand from public documents, and read in C, Rust and Python.

STREAM is fed to a screen of COLUMNS and ROWS. `cells` has a row of CELLS for each place of it: the code points of its character and of the
marks on it, in hexadecimal; how much of a character it has; the number of its link; whether its row goes on; and its style, as words.
`style_words` says how these are written: a program in another language writes them too, a line a cell (`lines`).

The documents: ECMA-48 (8.3.117 SGR, 8.3.21 CUP, 7.2.10 IRM), ITU-T T.416 (13.1.8: 38 and 48 by `:`), XTerm Control Sequences (21, 90 to 107,
the 256 colours, DECAWM, DECOM, DECTCEM, 1049), kitty's styled underlines (4:n), "Hyperlinks in terminal emulators" (OSC 8), and Unicode's
EastAsianWidth.txt (U+4E2D is W) and general category Mn (U+0301, U+0302, U+0323).
"""

COLUMNS, ROWS = 10, 8
ATTRIBUTES = ["bold", "dim", "italic", "blink", "reverse", "hidden", "struck_out", "overlined"]
PARTS = ["empty", "whole", "left", "right"]
UNDERLINES = ["", "single", "double", "curly", "dotted", "dashed"]
KINDS = ["default", "named", "bright", "indexed", "direct"]
LINKS = {1: "https://a.example/1", 2: "mailto:b@c.example"}  # each from where it begins on: the numbers count them

# What is printed, a character each but for marks and what is wide: its SGR parameters, the characters, and the words of its style.
ROWS_OF_STYLES = [
    [  # ECMA-48: bold, faint, italicized, slowly blinking, negative image, concealed, crossed-out, overlined
        *[("1", "a", "bold"), ("2", "b", "dim"), ("3", "c", "italic"), ("5", "d", "blink"), ("7", "e", "reverse")],
        *[("8", "f", "hidden"), ("9", "g", "struck_out"), ("53", "h", "overlined"), ("1;2;3;5;7;8;9;53", "i", " ".join(ATTRIBUTES))],
    ],
    [  # ECMA-48 and xterm: 4 is one line, 21 are two; kitty: 4:0 to 4:5
        *[("4", "a", "underline=single"), ("21", "b", "underline=double"), ("4:1", "c", "underline=single")],
        *[("4:2", "d", "underline=double"), ("4:3", "e", "underline=curly"), ("4:4", "f", "underline=dotted")],
        *[("4:5", "g", "underline=dashed"), ("4;4:0", "h", ""), ("4;24", "i", "")],
    ],
    [  # ECMA-48: 30 to 37; xterm: 90 to 97, and the 256 and red, green and blue by `;`; T.416: the same by `:`, with a colour space
        *[("31", "a", "foreground=named:1"), ("37", "b", "foreground=named:7"), ("94", "c", "foreground=bright:4")],
        *[("38;5;208", "d", "foreground=indexed:208"), ("38:5:17", "e", "foreground=indexed:17")],
        *[("38;2;1;2;3", "f", "foreground=direct:1,2,3"), ("38:2::9:80:255", "g", "foreground=direct:9,80,255")],
        *[("31;39", "h", ""), ("31;42", "i", "foreground=named:1 background=named:2")],
    ],
    [  # the same of the background: 40 to 47, 100 to 107, 48
        *[("42", "a", "background=named:2"), ("40", "b", "background=named:0"), ("103", "c", "background=bright:3")],
        *[("48;5;99", "d", "background=indexed:99"), ("48:5:16", "e", "background=indexed:16")],
        *[("48;2;4;5;6", "f", "background=direct:4,5,6"), ("48:2::10:20:30", "g", "background=direct:10,20,30")],
        *[("41;49", "h", ""), ("95;48;2;7;8;9", "i", "foreground=bright:5 background=direct:7,8,9")],
    ],
]
# Row 4: two marks on a letter, a wide character, one with a mark, in bold, and two links, the second in italics.
MARKED = "a\u0302\u0323x\u4e2d\x1b[1m\u4e2d\u0301\x1b[0m"
LINKED = "\x1b]8;;https://a.example/1\x1b\\l\x1b]8;;mailto:b@c.example\x07\x1b[3mm\x1b[0m\x1b]8;;\x1b\\n"
# Rows 5 and 6: eleven letters, of which the last goes on in the next row. Then the cursor is left in row 7 and column 4, hidden, with a
# style for what comes next.
WRAPPED = "abcdefghijk"
LEFT_AT = "\x1b[8;5H\x1b[1;3;4:3;35;48;5;20m\x1b[?25l"
STREAM = "".join("\x1b[%d;1H" % (at + 1) + "".join("\x1b[%sm%s\x1b[0m" % it[:2] for it in row) for at, row in enumerate(ROWS_OF_STYLES))
STREAM += "\x1b[5;1H" + MARKED + LINKED + "\x1b[6;1H" + WRAPPED + LEFT_AT
CURSOR = (7, 4, False)
STYLE = "foreground=named:5 background=indexed:20 underline=curly bold italic"

# A cell: its code points, how much of a character it has, its link, whether its row goes on, and the words of its style.
BLANK = ("20", "empty", 0, 0, "")
CELLS = {(row, column): ("%x" % ord(it[1]), "whole", 0, 0, it[2]) for row, of in enumerate(ROWS_OF_STYLES) for column, it in enumerate(of)}
CELLS.update({
    (4, 0): ("61 302 323", "whole", 0, 0, ""),
    (4, 1): ("78", "whole", 0, 0, ""),
    (4, 2): ("4e2d", "left", 0, 0, ""),
    (4, 3): ("20", "right", 0, 0, ""),
    (4, 4): ("4e2d 301", "left", 0, 0, "bold"),
    (4, 5): ("20", "right", 0, 0, "bold"),
    (4, 6): ("6c", "whole", 1, 0, ""),
    (4, 7): ("6d", "whole", 2, 0, "italic"),
    (4, 8): ("6e", "whole", 0, 0, ""),
    (5, 9): ("6a", "whole", 0, 1, ""),
    (6, 0): ("6b", "whole", 0, 0, ""),
})  # fmt: skip
CELLS.update({(5, column): ("%x" % ord(WRAPPED[column]), "whole", 0, 0, "") for column in range(9)})

# What the header gives numbers to: bits of what is asked for, keys, what is held, and what happens.
NUMBERED = [("asked_" + name, 1 << it) for it, name in enumerate(
    "keys mouse focus paste synchronized reverse cursor title icon folder progress bell colors".split())]  # fmt: skip
NUMBERED += [("key_" + name, it) for it, name in enumerate("character enter tab backspace escape".split())]
NUMBERED += [("key_" + name, 11 + it) for it, name in enumerate("up down right left home end insert delete page_up page_down".split())]
NUMBERED += [("key_pad_" + name, 50 + it) for it, name in enumerate("decimal divide multiply subtract add separator equal enter begin".split())]
NUMBERED += [("key_pad_0", 40), ("key_pad", 50), ("key_function", 100)]
NUMBERED += [("held_" + name, 1 << it) for it, name in enumerate("shift alt control super hyper meta caps_lock num_lock".split())]
NUMBERED += [("event_" + name, 1 + it) for it, name in enumerate("press repeat release".split())]
NUMBERED += [("place_" + name, it) for it, name in enumerate("cursor saved hidden".split())]
NUMBERED += [("rows_" + name, it) for it, name in enumerate("shown left all".split())]
NUMBERED += [("mouse_" + name, 1 + it) for it, name in enumerate("press release move".split())]

# Modes, and the cursor: what is fed to a new screen of 4 columns and 3 rows; its modes, in the order of ansi_modes; and the cursor's row
# and column. On at first: DECTCEM and DECAWM. In the last row a wrap is pending: the column is the number of columns.
MODE_NAMES = ["cursor_shown", "alternate_screen", "autowrap", "insert", "origin"]
MODES = [
    ("", {"cursor_shown", "autowrap"}, (0, 0)),
    ("\x1b[?25l", {"autowrap"}, (0, 0)),
    ("\x1b[?1049h", {"cursor_shown", "autowrap", "alternate_screen"}, (0, 0)),
    ("\x1b[?7l", {"cursor_shown"}, (0, 0)),
    ("\x1b[4h", {"cursor_shown", "autowrap", "insert"}, (0, 0)),
    ("\x1b[?6h", {"cursor_shown", "autowrap", "origin"}, (0, 0)),
    ("\x1b[3;2H", {"cursor_shown", "autowrap"}, (2, 1)),
    ("\x1b[2;1Habcd", {"cursor_shown", "autowrap"}, (1, 4)),
]
# Pairs of streams after which two screens of 4 columns and 3 rows are not equal, each by one thing alone: each mode, the style of what
# comes next, the cursor's row and column, a character, a colour, a mark and a link. (What 1049 keeps of the cursor is not told.)
UNEQUAL = [
    *[("", it) for it in ("\x1b[?25l", "\x1b[?1049h", "\x1b[?7l", "\x1b[4h", "\x1b[?6h", "\x1b[1m", "\x1b[44m", "\x1b[2;1H", "\x1b[1;2H")],
    *[("a", "b"), ("\x1b[31ma\x1b[0m", "\x1b[32ma\x1b[0m"), ("\x1b[31ma\x1b[0m", "\x1b[41ma\x1b[0m"), ("a", "a\u0301")],
    ("a", "\x1b]8;;https://a\x1b\\a\x1b]8;;\x1b\\"),
]
# Pairs after which they are equal: what is not told does not count (margins, a saved cursor, tabs), nor how it came to be.
EQUAL = [("a\x1b[1;31mb\x1b[0m", "xb\x1b[1;1Ha\x1b[31;1mb\x1b[m"), ("", "\x1b7"), ("", "\x1b[3g"), ("\x1b[4h\x1b[4l", "")]
# Streams that come one after another to a screen of 10 columns and 4 rows, and what can have changed by each: of each row that was written
# the columns from the first to the last one, and one on each side. At first all has.
CHANGED_SIZE = 10, 4
ALL = [(row, 0, 10) for row in range(4)]
CHANGES = [
    ("", ALL),
    ("", []),
    ("\x1b[3;6Hx", [(2, 4, 7)]),  # a letter in column 5
    ("\x1b[2;1Ha", [(1, 0, 2)]),  # at the left edge, and at the right one
    ("\x1b[2;10Hb", [(1, 8, 10)]),
    ("\x1b[1;3Hc\x1b[1;8Hd\x1b[4;5He", [(0, 1, 9), (3, 3, 6)]),  # two of a row, and what stands between them
    ("\x1b[2;4H\x1b[K", [(1, 2, 10)]),  # EL from column 3 on, and up to it
    ("\x1b[2;4H\x1b[1K", [(1, 0, 5)]),
    ("\x1b[3;3H\u4e2d", [(2, 1, 5)]),  # a wide character in columns 2 and 3; and a letter on its right half
    ("\x1b[3;4Hx", [(2, 2, 5)]),
    ("\x1b[3;4Hx", [(2, 2, 5)]),  # the same again is written again
    ("\x1b[?25l\x1b[?7l\x1b[?7h\x1b[31m\x1b[m\x1b[2;2H", []),  # modes, styles and the cursor
    ("\x1b7\x1b[2;3r\x1b[r\x1bH\x1b]0;t\x07", []),  # what is saved, margins, tabs, a title
    ("\x1b[3;1H\x1b[L", ALL[2:]),  # IL moves this row and those below
    ("\x1b[4;1H\n", ALL),  # a line feed on the last row scrolls
    ("\x1b[2;9H123", [(1, 7, 10), (2, 0, 2)]),  # autowrap
    ("\x1b[?1049h", ALL),
    ("\x1b[?1049l", ALL),
    ("\x1bc", ALL),
]


def changed_lines():
    """What tests/callers/cells.c and cells.rs write of them."""
    for _, changes in CHANGES:
        yield from ("change %d %d %d" % it for it in changes)
        yield "forgotten"


def cells():
    """Each place, from the first row on, with its cell."""
    return [((row, column), CELLS.get((row, column), BLANK)) for row in range(ROWS) for column in range(COLUMNS)]


def lines():
    """What a program writes of each cell: row, column, code points, part, link, whether the row goes on, and the style's words."""
    return ["%d %d|%s|%s|%d|%d|%s" % (*place, *cell) for place, cell in cells()]


def style_words(foreground, background, underline, attributes):
    """The words of a style: of two colours, each a kind and its numbers; of an underline, and of the attributes that are on."""
    words = ["%s=%s:%s" % (name, kind, ",".join(map(str, numbers))) for name, (kind, numbers) in
             (("foreground", foreground), ("background", background)) if kind != "default"]  # fmt: skip
    return " ".join(words + (["underline=" + underline] if underline else []) + list(attributes))
