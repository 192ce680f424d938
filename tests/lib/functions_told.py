"""What man/ansi_functions.7 says that each control function does, beside what the library does: of all controls, escape sequences,
control sequences with at most a mark and an intermediate, modes and strings those do something, and just that, of which it says so."""

import re

ROW = re.compile(r'(?m)^\.It (?:"[^"]*"|\S+) Ta ("[^"]*"|\S+) Ta ("[^"]*"|\S+)$')
ROWS = 160  # so many at least has the page
ESC, ST = b"\x1b", b"\x1b\\"
MARKS = ["", "<", "=", ">", "?"]
INTERMEDIATES = [""] + [chr(it) for it in range(0x20, 0x30)]
ESC_FINALS, CSI_FINALS = [[chr(it) for it in range(first, 0x7F)] for first in (0x30, 0x40)]
# (an escape sequence that begins another kind of sequence or a string)
OTHER_KINDS = {"P", "X", "[", "]", "^", "_", "\\"}
MODES = [*range(130), *range(990, 1070), *range(1990, 2060), 8452]
COMMANDS = [*range(130), 133, 555, 633, 697, 777, 1337, 9001]

# What a screen of 6x4 was fed before: after each of these any function that does something can be seen to.
BEFORE = [
    b"\x1b(0\x0eabcdefghijklmnopqr\x1b[1;31m\x1b[2;3r\x1b[2;1H\x1b7\x1b[3g\x1b[2;3Hz",
    b"abcdefghijklmnopqr\x1b[2;4r\x1b[?6;1h\x1b[4h\x1b=\x1b[>4;2m\x1b[>5u\x1b[5 q\x1b]2;a\x07\x1b[22t\x1b]2;b\x07\x1b]8;;http://a\x07\x1b[3;2Hy",
    b"\x1b]4;1;#111111\x07\x1b]10;#222222\x07\x1b]11;#333333\x07\x1b]12;#444444\x07abcdef\x1b[?1049h\x1b[2;2H\x1b)0\x1b[1mx",
]
NUMBERS = ["", "0", "1", "2", "3", "4;1", "5", "6", "7", "18", "22", "23"]
FEW_NUMBERS = ["", "1", "4", "2;3", "1;1;2;2"]
DATA = [b"", b";?", b";1", b";t", b";1;?", b";1;rgb:1/2/3", b";;http://b", b";#555555", b";4;1;50", b";file://h/p", b";c;YQ==", b";A"]


def table(page):
    """What each row is of, and what it says that this does."""
    for asked, told in ROW.findall(page):
        parts = asked.strip('"').replace(r"\(dq", '"').split()
        yield key_of(parts), frozenset(told.strip('"').split(", ")) - {"no"}


def key_of(parts):
    kind, *rest = parts
    rest = [{"SP": " "}.get(it, it) for it in rest]
    if kind == "CSI" and rest[-1] == "h" and rest[-2:-1] and rest[-2].isdigit():
        return "mode", "".join(rest[:-2]), int(rest[-2])
    if kind in ("ESC", "CSI", "DCS"):
        return kind, "".join(rest[:-1]), rest[-1]
    return (kind, int(rest[0])) if kind == "OSC" else ("control", int(kind, 16))


def candidates():
    """Each function, with the bytes by which it might do something."""
    for byte in range(0x20):
        if byte != 0x1B:
            yield ("control", byte), [bytes([byte])]
    for byte in range(0x80, 0xA0):
        yield ("C1", byte), [bytes([byte]), chr(byte).encode()]
    for between in INTERMEDIATES:
        for final in ESC_FINALS:
            if between or final not in OTHER_KINDS:
                yield ("ESC", between, final), [ESC + (between + final).encode()]
    for mark in MARKS:
        for between in INTERMEDIATES:
            for final in CSI_FINALS:
                if (mark not in ("", "?") or between or final not in "hl") and not (mark and between and (mark, between, final) != ("?", "$", "p")):
                    numbers = FEW_NUMBERS if between else NUMBERS
                    yield ("CSI", mark + between, final), [ESC + b"[" + (mark + it + between + final).encode() for it in numbers]
    for mark in ("", "?"):
        for number in MODES:
            yield ("mode", mark, number), [ESC + b"[" + ("%s%d%s" % (mark, number, final)).encode() for final in "hl"]
    for number in COMMANDS:
        yield ("OSC", number), [ESC + b"]%d%s\x07" % (number, data) for data in DATA]
    for between in INTERMEDIATES:
        for final in CSI_FINALS:
            yield ("DCS", between, final), [ESC + b"P" + (between + final).encode() + data + ST for data in (b"m", b"17/17", b"#0~")]
    for name, begin in [("APC", b"_"), ("PM", b"^"), ("SOS", b"X")]:
        yield (name,), [ESC + begin + data + ST for data in (b"a", b"Ga=T", b"1;2m")]


def shown(screen):
    history = [tuple(row) for row in screen.history]
    return screen.cells, screen.place, screen.saved, screen.hidden_saved, screen.margins, screen.stops, screen.modes[:5], history


def told(screen):
    return screen.title, screen.modes[5:]


def begun(Screen, before):
    """A screen that was fed this, of which nothing is asked and no answer waits."""
    screen = Screen(6, 4, history=4)
    screen.feed(before)
    screen.asked(), screen.answers()
    return screen


def effects(first, base, written):
    """What this does to such a screen, where what comes after the sequence alone makes the base of it."""
    found = set()
    screen = first.copy()
    screen.feed(written)
    if screen.asked() or told(screen) != told(base):
        found.add("told")
    if screen.answers():
        found.add("answered")
    if screen != base or shown(screen) != shown(base):
        found.add("screen")
    screen.close()
    return found


def found_of(Screen, wanted):
    """The functions that do something other than wanted, with what they do."""
    # (a character after it shows which link is in force)
    bases = [(begun(Screen, before), begun(Screen, before + after), after) for before in BEFORE for after in (b"", b"W")]
    for key, sequences in candidates():
        does = set()
        for first, base, after in bases:
            for sequence in sequences:
                does |= effects(first, base, sequence + after)
        if does != wanted.get(key, set()):
            yield key, does


def cases(Screen, page):
    rows = list(table(page))
    wanted = dict(rows)
    yield "man/ansi_functions.7 has tables", None if len(rows) >= ROWS else "they have %d rows" % len(rows)
    known = {key for key, _ in candidates()} | {(kind, between, "F") for kind, between, final in (it for it, _ in candidates() if it[0] == "ESC")}
    for key in sorted(set(wanted) - known, key=str):
        yield "man/ansi_functions.7: %s" % (key,), "it is none that is tried"
    # (F is any final byte)
    for kind, between, final in [it for it in wanted if it[0] == "ESC" and it[2] == "F"]:
        does = wanted.pop((kind, between, final))
        wanted.update({(kind, between, it): does for it in ESC_FINALS})
    wrong = ["%s: %s" % (key, ", ".join(sorted(does)) or "nothing") for key, does in found_of(Screen, wanted)]
    yield "each control function does what man/ansi_functions.7 says", "; ".join(wrong[:20]) or None
