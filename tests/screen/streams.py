"""Generated streams: for tests/screen_twin, and for each of the terminals that tests/screen/compare.py and
redrawn.py ask.

    mixed(draw)                     text, controls and sequences of each kind
    varied(draw, codes)             the same with more styles, of these codes, margins and saved places
    unusual(draw)                   the same with sequences that do nothing, or are cut
    tmux(draw, width, height)       operations on which tmux agrees, of those of tests/screen/twin.py
    xterm(draw, width, height)      the same for xterm, in whatever state they come to
    libvterm(draw, width, height)   every operation, but where vterm_differences.py has a row for libvterm

`draw` is a random.Random. tests/screen/compare.py says what is left out for tmux and xterm.
"""

from string import ascii_lowercase

from vterm_differences import agreed

# What selects styles, as it stands before the m.
STYLES = ["0", "1", "31", "44", "38;5;200", "48:2::1:2:3", "4:3", "7;105", "21;53", "3;9", "2;5;8", ""]


def tmux_piece(draw, width, height):
    """A piece of a stream for tmux. Controls and edits come behind a move, so that no wrap is pending."""
    kind, some = draw.random(), str(draw.randint(0, 9))
    move = "\x1b[%d;%dH" % (draw.randint(1, height), draw.randint(1, width - 2))
    if kind < 0.35:
        words = ["a", "xyz", "lqk", "e\u0301", "o\u0302\u0323", " ", "word", "\x1b[%sb" % some]
        return "".join(draw.choice(words) for _ in range(draw.randint(1, 5)))
    if kind < 0.5:
        return draw.choice(["\r", "\r\n", "\r\n", "\x0e", "\x0f", "\x1b(0", "\x1b(B", "\x1b)0", "\x1b)B"])
    if kind < 0.7:
        return move + draw.choice(["\x1b[@", *("\x1b[" + some + final for final in "PXKJABCDEFGdZST`")])
    if kind < 0.8:
        return move + draw.choice(["\n", "x\b", "\t", "\x1bD", "\x1bE", "\x1bM", "\x1bH", "\x1b[g", "\x1b7", "\x1b8"])
    if kind < 0.9:
        top = draw.randint(1, height - 1)
        region = "\x1b[%d;%dr\x1b[H" % (top, draw.randint(top + 1, height))
        return region + draw.choice(["", "\x1b[%sL\r" % some if top == 1 else ""])
    return move + draw.choice(["\x1b[4hx\x1b[4l", "\x1b[?6h", "\x1b[?6l", "\x1b[r", "\x1b[H"])


def xterm_piece(draw, width, height, has_origin, has_wide):
    """A piece of a stream for xterm, in whatever state."""
    kind, some = draw.random(), str(draw.randint(1, 9))
    move = "\x1b[%d;%dH" % (draw.randint(1, height), draw.randint(1, width))
    if kind < 0.35:
        wide = "\x1b[%dG" % draw.randint(1, width - 3) + draw.choice(["漢字", "한"])
        words = ["a", "xyz", "lqk", wide if has_wide else "b", "ﾊ", " ", "word", "\xad", "\x7f", "0123456789" * 2]
        return "".join(draw.choice(words) for _ in range(draw.randint(1, 5)))
    if kind < 0.5:
        return draw.choice([*"\r\n\b\t\v\f\a\x0e\x0f", "\r\n", "\x1b(0", "\x1b(B", "\x1b)0", "\x1b)B"])
    if kind < 0.75:
        final = draw.choice("ABCDEFGHIJKLMSTX`adfg" + ("" if has_wide else "@P"))
        numbers = {"J": ["", "1", "2", some], "K": ["", "1", "2", some], "S": ["", "1"], "T": ["", "1"]}
        return "\x1b[%s%s" % (draw.choice(numbers.get(final, ["", some, some])), final)
    if kind < 0.85:
        origin = ["\x1b[?6h", "\x1b[?6l"] if has_origin else ["\x1b7", "\x1b8"]
        insert = [] if has_wide else ["\x1b[4h", "\x1b[4l"]
        return draw.choice(["\x1bD", "\x1bE", "\x1bM", "\x1bH", "\x1b[?7h", "\x1b[?7l", *origin, *insert])
    if kind < 0.9:
        return "\x1b[%d;%dr" % (draw.randint(0, height), draw.randint(0, height + 1))
    alternate = "" if has_origin else "\x1b[?1049h漢xyz\x1b[J\x1b[?1049l"
    again = "\r%s\x1b[%sb" % ("漢" if has_wide else "a", some)
    return move + draw.choice(["\x1b[%sZ" % some, again, "\x1b[3g", "\x1b[!p", alternate])


def every_piece(draw, width, height):
    """A piece of a stream for libvterm: one as for xterm, often at a pending wrap, or of what else there is."""
    some, is_full = str(draw.randint(0, 12)), draw.random() < 0.2
    if draw.random() < 0.7:
        full = "\x1b[%dGx" % width if is_full else ""
        return full + xterm_piece(draw, width, height, draw.random() < 0.5, draw.random() < 0.5)
    words = ["e\u0301", "o\u0302\u0323\u0301", "\u0301", "\u200d", "漢\u0301", "😀", "l_q", "\x85", "xyz#%s" % some]
    text = "".join(draw.choice(words) for _ in range(draw.randint(1, 3)))
    late = "\x1b[%dG" % draw.randint(width - 2, width) + draw.choice(["", "\x1b(0"]) + text
    moves = ["\x1b[%s;%sf" % (some, some), "\x1b[;%sH" % some, "\x1b[65535" + draw.choice("ABCDEFGHILMPSTXZ@`ad")]
    repeated = ["\x1b[b", "a\x1b[%sb" % some, "\x1b[65535b", "漢\x1b[%sb" % some]
    modes = ["\x1b[?6;7h", "\x1b[?7;6l", "\x1b[4;5h", "\x1b[?25l", "\x1b[7h", "\x1b[?6h\x1b7"]
    tabs = ["\x1bH\r\t", "\x1b[9G\x1b[g\r\t", "\x1b[3g\t", "\t\x1b[%sI" % some, "\x1b[%sZ" % some]
    saved = ["\x1b7", "\x1b8", "\x1b[s", "\x1b[u", "\x1b[?1049h", "\x1b[?1049l", "\x1bc"]
    unknown = ["\x1b[?5J", "\x1b[2$X", "\x1b[31;44m", "\x1b]0;t\x07", "\x1b=", "\x1b(A", "\x1b*0", "\x1b[%sy" % some]
    return draw.choice([text, late, *map(draw.choice, (moves, repeated, modes, tabs, saved, saved, unknown))])


def tmux(draw, width, height):
    return "".join(tmux_piece(draw, width, height) for _ in range(draw.randint(2, 20)))


def xterm(draw, width, height):
    has = draw.random() < 0.5, draw.random() < 0.5
    text = "".join(xterm_piece(draw, width, height, *has) for _ in range(draw.randint(2, 20)))
    return text + draw.choice(["", "", "\x1b[4l\x1b[?7h\x1b[%dG漢字" % draw.randint(width - 2, width)])


def some_screen(draw, width, height):
    """What leads to rows of letters, so that an edit shows, to margins and modes, and to a place."""
    letters = lambda n: "".join(draw.sample(ascii_lowercase, n))
    rows = [draw.choice(["", letters(5), letters(width), letters(5) + "漢字한"]) for _ in range(height)]
    top = draw.randint(1, height - 1)
    region = "\x1b[%d;%dr" % (top, draw.randint(top + 1, height))
    modes = [draw.choice(["", "", mode]) for mode in ("\x1b[?6h", "\x1b[4h", "\x1b[?7l")]
    place = "\x1b[%d;%dH" % (draw.randint(1, height), draw.randint(1, width))
    return draw.choice(["", "", "\x1b[?1049h"]) + "\r\n".join(rows) + draw.choice(["", region]) + "".join(modes) + place


def libvterm(draw, width, height):
    """Two characters at the end show where the cursor is, and whether a wrap is pending."""
    text = "".join(every_piece(draw, width, height) for _ in range(draw.randint(1, 12)))
    last = draw.choice(["", "\x1b[4l\x1b[?7h"]) + "+-"
    return agreed(some_screen(draw, width, height) + text + last, width, height)


def number(draw):
    return draw.choice(["", str(draw.randint(0, 12)), str(draw.randint(0, 12)), "65535"])


# Sequences that do nothing: with > or =, with two intermediates or three, with more than 32 fields, and malformed ones.
NOTHING = ["\x1b[>4;1m", "\x1b[>4m", "\x1b[>1;2H", "\x1b[>1J", "\x1b[>4h", "\x1b[=4h", "\x1b[<7m", "\x1b((0", "\x1b))0"]
NOTHING += ["\x1b( 0", "\x1b  c", "\x1b(((0", "\x1b[1  m", "\x1b[?!6h", "\x1b[?7!l", "\x1b[!!p", "\x1b[1   K", "\x1b[?>7l"]
NOTHING += ["\x1b[3%s%s" % (";" * 32, final) for final in "mJHChbr"] + ["\x1b[3%sC" % (":1" * 32), "\x1b[1?m", "\x1b[1 2C"]
# Sequences that CAN, SUB or another sequence cuts, or that have a control in them, which does what it does elsewhere.
CUT = ["\x1b[3\x18", "\x1b[2\x1a", "\x1b[2\x1b[1C", "\x1b[1\n2C", "\x1b[\r2;\b3H", "\x1b(\x18", "\x1b(\x1b7", "\x1b\x1b[A", "\x1b\n8"]
CUT += ["\x1b]0;t\x18", "\x1b]0;t\x1b[B", "\x1bP1$qm\x1a", "\x1bP1$q\n\x1b[1;31m", "\x1b_a\x18", "\x1b^a\x07\x1b\\"]
ENDS = ["\x1b", "\x1b[", "\x1b[2", "\x1b[1;", "\x1b[?7", "\x1b(", "\x1b]0;t"]  # what a stream may break off in


def unusual_piece(draw):
    """A piece that does nothing, or is cut."""
    return draw.choice(draw.choice([NOTHING, CUT]))


def broken_off(draw, text):
    """The stream, or one that breaks off in a sequence."""
    return text + draw.choice(ENDS) if draw.random() < 0.2 else text


def mixed_piece(draw):
    """A piece of a stream: text, a control, or a sequence."""
    kind = draw.random()
    if kind < 0.35:
        words = ["a", "b", "xyz", "l_q", "\u0301\u0302\u0303", "e\u0301", "漢", "字", " ", "\u0301", "\xad", "한", "\u200d", "ﾊ", "😀"]
        return "".join(draw.choice(words) for _ in range(draw.randint(1, 6)))
    if kind < 0.5:
        return draw.choice(["\r", "\n", "\b", "\t", "\r\n", "\x0b", "\x0c", "\x07", "\x0e", "\x0f"])
    if kind < 0.78:
        fields = number(draw) + draw.choice(["", ";" + number(draw)])
        return "\x1b[%s%s" % (fields, draw.choice("@ABCDEFGHIJKLMPSTXZ`abbdefgrsuHHHrn"))
    if kind < 0.86:
        modes = ["?6", "?7", "?25", "?1049", "4", "?6;7", "4;5", "?4", "7"]
        return "\x1b[%s%s" % (draw.choice(modes), draw.choice("hl"))
    if kind < 0.94:
        return "\x1b" + draw.choice([*"778DEHM78DEHMc=", "[s", "[u", "(0", "(B", ")0", ")B", "(0", "*0", "(A"])
    return draw.choice(["\x1b[31m", "\x1b[0;44m", "\x1b[1m", "\x1b[4;31m", "\x1b[m", "\x1b]0;t\x07", "\x1b[3;4:2H", "\x1b[?5J", "\x1b[2$X", "\x1b[!p", "\x7f"])


def mixed(draw):
    pieces = (draw.choice([mixed_piece] * 9 + [unusual_piece])(draw) for _ in range(draw.randint(3, 40)))
    return broken_off(draw, "".join(pieces))


def unusual(draw):
    """A stream as `varied`, with pieces that do nothing or are cut, which terminals may read otherwise."""
    return broken_off(draw, varied(draw, others=[unusual_piece] * 2))


def varied(draw, codes=STYLES, others=()):
    """A stream with more styles, margins and places that are saved, on either screen; and some pieces by others."""
    places = ["\x1b7", "\x1b[2J\x1b8", "\x1b7\x1b[K\x1b8", "\x1b7\x1b[?6h", "漢\x1b7\b\x1b[X\x1b8\u0301"]
    pieces = []
    for _ in range(draw.randint(1, 25)):
        margins = "\x1b[%d;%dr" % (draw.randint(1, 4), draw.randint(2, 8))
        full = draw.choice("x漢") * draw.randint(1, 20)
        style = "\x1b[%sm" % draw.choice(codes)
        pieces += [mixed_piece(draw), draw.choice([style, style, margins, full + draw.choice(places), "\x1b[?1049h", ""])]
        pieces += [it(draw) for it in others if draw.random() < 0.1]
    return "".join(pieces)
