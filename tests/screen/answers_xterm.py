#!/usr/bin/env python3
"""Holds what a screen answers a program beside xterm and tmux.

Usage: tests/screen/answers_xterm.py [--count N] [--seed N]

Each gets the same streams, and after each is asked for all that is answered, and for some more. Streams are generated, as those
of streams.py on which the screens agree with modes, colours and styles among them, and the recordings. The answers are compared
one by one, and those to a stream itself. What differs for a reason of DIFFERENCES is counted beside it; what differs for none is
shown, and then the status is 1. Wants the Debian packages xterm, xvfb and tmux, and the library as make builds it; is run by hand.

    --count N, --seed N    so many generated streams (300), from this one on (1)
"""

import argparse
import collections
import os
import random
import re
import sys
import tempfile

sys.dont_write_bytecode = True

import streams
import styles
import terminals

ROOT = os.path.dirname(os.path.dirname(os.path.dirname(os.path.realpath(__file__))))
sys.path.append(os.path.join(ROOT, "bindings", "python", "src"))
from ansi_proved import Screen

RECORDINGS = os.path.join(ROOT, "tests", "screen", "recordings")
SIZE, RECORDED = (20, 6), (80, 24)

STATUS, WELL = terminals.RED_ON  # what is asked between all else, and its answer
CANCEL, COLORLESS = b"\x18", b"\x1b]104\x07\x1b]110\x07\x1b]111\x07\x1b]112\x07"
PRIVATE = [1, 5, 6, 7, 9, 12, 25, 66, 67, 1000, 1002, 1003, 1004, 1006, 1007, 1015, 1016, 1049, 2004, 2026]
ENDS = ("\x1b\\", "\x07")
NO_SETTING = b"\x1bP0$r\x1b\\"
REVERSE = re.compile(rb"\x1b\[\?([\d;]*;)?5(;[\d;]*)?h")
COLOR = re.compile(rb"\x1b\]1[012];rgb:[\da-f]{4}/[\da-f]{4}/[\da-f]{4}(\x07|\x1b\\)")
PENDING = re.compile(rb";(2|8)0R")  # a cursor in the last column
COLORS = ["4;1", "4;9", "4;200", "10", "11", "12"]
ASKED = {
    "CPR": "\x1b[6n", "DECXCPR": "\x1b[?6n", "DA1": "\x1b[c", "DA1, 0": "\x1b[0c", "DA2": "\x1b[>c", "DA3": "\x1b[=c",
    "XTVERSION": "\x1b[>q", "size": "\x1b[18t", "kitty's flags": "\x1b[?u",
    **{"DECRQSS %s" % it: "\x1bP$q%s\x1b\\" % it for it in ("m", "r", " q", "z", "mm", "")},
    **{"DECRQM %d" % it: "\x1b[%d$p" % it for it in (4, 20, 99)},
    **{"DECRQM ?%d" % it: "\x1b[?%d$p" % it for it in [*PRIVATE, 1005, 999, 31999]},
    **{"OSC %s" % it: "\x1b]%s;?\x1b\\" % it for it in COLORS},
    "DECRQM": "\x1b[$p", "DECRQM ?": "\x1b[?$p", "DECRQSS 1, m": "\x1bP1$qm\x1b\\", "kitty's flags, 1": "\x1b[?1u",
    "OSC 4, BEL": "\x1b]4;1;?\x07", "OSC 11, BEL": "\x1b]11;?\x07", "OSC 4, two": "\x1b]4;1;?;9;?\x1b\\", "OSC 10, two": "\x1b]10;?;?\x1b\\",
}
# what xterm answers beside
OTHERS = {
    "DECID": "\x1bZ", "ENQ": "\x05", "DECREQTPARM": "\x1b[x", "DECRQUPSS": "\x1b[&u", "DECCIR": "\x1b[1$w", "DECTABSR": "\x1b[2$w",
    "XTQMODKEYS": "\x1b[?4m", "XTGETTCAP": "\x1bP+q544e\x1b\\",
    **{"DSR ?%d" % it: "\x1b[?%dn" % it for it in (15, 25, 26, 53)},
    **{"CSI %d t" % it: "\x1b[%dt" % it for it in (11, 13, 14, 16, 19, 20, 21)},
    **{"OSC %s" % it: "\x1b]%s;?\x1b\\" % it for it in ("4;256", "5;0", "13", "17", "19")},
    **{"DECRQSS %s" % it: "\x1bP$q%s\x1b\\" % it for it in ('"p', '"q', "s", "t", "*x")},
    **{"DECRQM %s" % it: "\x1b[%s$p" % it for it in ("2", "12", "?2", "?3", "?8", "?13", "?40", "?45", "?47", "?69", "?1034", "?1047")},
}
NAMES = [*ASKED, *OTHERS, "DSR"]


def style_of(answer):
    """The style that an answer to DECRQSS of SGR tells; None, where it is none."""
    found = re.fullmatch(rb"\x1bP1\$r([\d;:]*)m\x1b\\", answer)
    fields = lambda group: [int(it or 0) for it in group.split(":")]
    return found and styles.selected([fields(it) for it in found[1].decode().split(";")], styles.PLAIN)


def rowless(answers):
    """Answers without the rows that CPR tells."""
    return re.sub(rb"\x1b\[\d+;(\d+)R", rb"\1", answers)


def states(theirs, ours):
    """What both tell of a mode, by DECRPM."""
    return tuple(int(found[1]) if found else None for found in (re.fullmatch(rb"\x1b\[\??\d+;(\d)\$y", it) for it in (theirs, ours)))


def is_style(reset, theirs, ours):
    """Whether both tell one style: xterm has no line above; and where that is so, it can have left some of it at a reset."""
    theirs, ours = style_of(theirs), style_of(ours)
    if theirs and ours and reset:
        theirs = theirs._replace(dim=ours.dim, italic=ours.italic, struck_out=ours.struck_out, underline=ours.underline)
    return theirs and ours and theirs == ours._replace(overlined=False)


def sized(size):
    return b"\x1b[8;%d;%dt" % (size[1], size[0])


# Of which answers, why they differ, and which that explains, by the stream, theirs and ours.
BOTH = [
    ("DA1.*", "what it is", lambda _, theirs, ours: ours == b"\x1b[?62;22c" and re.fullmatch(rb"\x1b\[\?[\d;]+c", theirs)),
    ("DA2", "its version", lambda _, theirs, ours: ours == b"\x1b[>1;10;0c" and re.fullmatch(rb"\x1b\[>[\d;]+c", theirs)),
    ("XTVERSION", "its name", lambda _, theirs, ours: all(re.fullmatch(rb"\x1bP>\|[ -~]+\x1b\\", it) for it in (theirs, ours))),
    ("kitty's flags.*", "it has no flags of kitty's", lambda _, theirs, ours: (theirs, ours) == (b"", b"\x1b[?0u")),
    ("|".join(map(re.escape, OTHERS)), "not answered here", lambda _, theirs, ours: ours in (b"", NO_SETTING) or states(theirs, ours)[1] == 0),
]
OF_XTERM = [
    (r"DECRQM (20|\?1005)", "what can't be set here is told as 4", lambda _, theirs, ours: states(theirs, ours) == (2, 4)),
    (r"DECRQM \?2026", "xterm 379 has no 2026", lambda _, theirs, ours: states(theirs, ours) in ((0, 1), (0, 2))),
    (r"DECRQM( \?)?", "a number that is left out is told as 0 here", lambda _, theirs, ours: theirs.replace(b"65535", b"0") == ours),
    ("DECRQSS 1, m", "it has no answer where a number comes first", lambda _, theirs, ours: theirs == b"" and style_of(ours)),
    ("DECRQSS m", "the same style in other words", lambda _, theirs, ours: is_style(False, theirs, ours)),
    ("DECRQSS m", "its DECSTR leaves some of a style", lambda data, theirs, ours: b"\x1b[!p" in data and is_style(True, theirs, ours)),
    ("OSC 1[012].*", "its colours change places in reverse video", lambda data, theirs, ours: REVERSE.search(data) and COLOR.fullmatch(ours)),
    ("OSC .*, two", "of two the first is answered here", lambda _, theirs, ours: ours and theirs.startswith(ours)),
]
OF_TMUX = [
    ("DECXCPR|DA3|DECRQ.*|OSC 10, two", "it has no answer", lambda _, theirs, ours: theirs == b"" and ours),
    ("CPR|stream", "it tells a column past the last", lambda _, theirs, ours: theirs == PENDING.sub(rb";\g<1>1R", ours)),
    ("CPR|stream", "it counts from the first row in origin mode", lambda data, theirs, ours: b"\x1b[?6h" in data and rowless(theirs) == rowless(ours)),
    ("size", "3.3a tells columns before rows", lambda _, theirs, ours: [theirs] == [b"\x1b[8;%d;%dt" % it for it in (SIZE, RECORDED) if sized(it) == ours]),
    ("OSC 4;(9|200)", "3.3a tells the first eight colours", lambda _, theirs, ours: theirs == b"" and ours),
    ("OSC 1[01].*", "3.3a forgets it by OSC 104", lambda data, theirs, ours: b"\x1b]104\x07" in data and theirs == b"" and COLOR.fullmatch(ours)),
    ("OSC 4.*", "3.3a leaves the number out", lambda _, theirs, ours: theirs and theirs == re.sub(rb"\]4;\d+;", b"]4;", ours)),
]
DIFFERENCES = {"xterm": BOTH + OF_XTERM, "tmux": BOTH + OF_TMUX}


def asking(draw, width, height, kind):
    """A piece of a stream that changes what is answered."""
    chosen = draw.random()
    if chosen < 0.35:
        modes = draw.sample([it for it in PRIVATE if kind == "xterm" or it not in (6, 7, 1049)], draw.randint(1, 3))
        # (1049 at a pending wrap leaves the cursor elsewhere: ansi_screen)
        return "%s\x1b[?%s%s" % ("\r" * (1049 in modes), ";".join(map(str, modes)), draw.choice("hhl"))
    if chosen < 0.5:
        return "\x1b[%sm" % ";".join(draw.choice(terminals.Xterm.codes + ["38;2;1;2;3", "1", "0"]) for _ in range(draw.randint(1, 3)))
    if chosen < 0.6:
        return "\x1b[%s q" % draw.choice(["", *"0123456"])
    if chosen < 0.75:
        color = draw.choice(["rgb:12/34/56", "#abcdef", "rgb:ffff/0000/8080"])
        return "\x1b]%s;%s%s" % (draw.choice(COLORS), color, draw.choice(ENDS))
    if chosen < 0.8:
        return draw.choice(["\x1b]104\x07", "\x1b]104;1\x07", "\x1b]110\x07", "\x1b]111\x07", "\x1b]112\x07"])
    others = ["\x1b=", "\x1b>", "\x1b[4h", "\x1b[4l", "\x1b[6n", "\x1b[5n", "\x1b[%d;%dH" % (draw.randint(1, height), draw.randint(1, width))]
    if kind == "xterm":
        others += [*["\x1b[!p", "\x1bc"] * 2, "\x1b[%d;%dr" % (draw.randint(0, 3), draw.randint(3, height)), "\x1b[%dGx" % width]
        others += ["\x1b[?6n", "\x1b[%d;%dr\x1b[?6h\x1b[%dd" % (draw.randint(1, 3), draw.randint(4, height), draw.randint(1, height))]
    return draw.choice(others)


def generated(seed, kind):
    """A stream of pieces on which the terminal and this agree, and of those that change the answers."""
    draw, pieces = random.Random(seed), []
    for _ in range(draw.randint(1, 12)):
        if draw.random() < 0.4:
            pieces.append(streams.tmux_piece(draw, *SIZE) if kind == "tmux" else streams.xterm_piece(draw, *SIZE, False, False))
        pieces.append(asking(draw, *SIZE, kind))
    return "".join(pieces).encode()


class Asked:
    """A terminal that is asked: DSR is, after each of the others, so that it is known where an answer ends."""

    def __init__(self, terminal, sent, read, reset):
        self.terminal, self.sent, self.read, self.reset = terminal, sent, read, reset

    def answers(self, data):
        """What is answered to a stream, and to each that is asked for after it."""
        self.ask(self.reset, 1)
        found = self.ask(data + CANCEL, 1 + data.count(STATUS))
        told = self.ask(b"".join(it.encode() + STATUS for it in [*ASKED.values(), *OTHERS.values()]) + STATUS, len(NAMES) + 1)
        return {"stream": found, **dict(zip(NAMES, [*told.split(WELL)[: len(NAMES) - 1], WELL]))}

    def colors(self):
        """Its own colours, as far as it tells them."""
        self.ask(self.reset, 1)
        told = {it: re.search(rb"rgb:(..)../(..)../(..)..", self.ask(b"\x1b]%s;?\x07" % it.encode(), 1)) for it in COLORS}
        return {name: [int(it, 16) for it in found.groups()] for name, found in told.items() if found}

    def ask(self, data, count):
        """Sends it, and DSR after it, and answers what comes up to so many answers to DSR, without the last."""
        terminals.write_all(self.sent, data + STATUS)
        return terminals.read_until(self.read, WELL, type(self.terminal).__name__, count)[: -len(WELL)]


class Xterm(terminals.Xterm):
    """With the modes at first that a screen has."""

    LIBERTIES = [*terminals.Xterm.LIBERTIES, "backarrowKey: false", "backarrowKeyIsErase: false"]


def opened(kind, folder, size):
    if kind == "tmux":
        terminal = terminals.Tmux(folder, *size)
        return Asked(terminal, terminal.stream, terminal.answers, b"\x18\x1b\\" + COLORLESS + b"\x1b[?1049l\x1bc\x1b[4l\x1b[2J\x1b[H")
    terminal = Xterm(folder, *size)
    # (its alternate screen keeps what ESC 7 saved)
    return Asked(terminal, terminal.terminal, terminal.terminal, CANCEL + COLORLESS + b"\x1b[!p\x1b[?1007;1049l\x1b[?1049h\x1b[m\x1b[H\x1b7\x1b[?1049l\x1bc\x1b[H")


def answers_here(size, colors, data):
    """What a screen answers of a terminal with these colours."""
    screen, found = Screen(*size), {}
    named = {"10": "foreground", "11": "background", "12": "cursor"}
    palette = {int(it[2:]): color for it, color in colors.items() if it not in named}
    screen.colors(palette=palette, **{named[it]: color for it, color in colors.items() if it in named})
    for name, asked in {"stream": data + CANCEL, **ASKED, **OTHERS, "DSR": STATUS}.items():
        screen.feed(asked)
        found[name] = screen.answers()
    return found


def inputs(options, kind):
    """The sizes, and the streams for each, with their names."""
    yield SIZE, [("stream %d" % it, generated(it, kind)) for it in range(options.seed, options.seed + options.count)]
    names = sorted(os.listdir(RECORDINGS))
    yield RECORDED, [(it, open(os.path.join(RECORDINGS, it), "rb").read()) for it in names]


def reason(kind, name, data, theirs, ours):
    """Why they differ; None, where no reason says so."""
    return next((why for names, why, explains in DIFFERENCES[kind] if re.fullmatch(names, name) and explains(data, theirs, ours)), None)


class Tally:
    """How many answers are the same, how many differ for which reason, and how many for none."""

    def __init__(self, kind):
        self.kind, self.streams, self.same, self.unexplained = kind, 0, 0, 0
        self.reasons = collections.defaultdict(collections.Counter)

    def add(self, stream, data, theirs, ours):
        self.streams += 1
        for name in ["stream", *NAMES]:
            why = reason(self.kind, name, data, theirs[name], ours[name])
            if theirs[name] == ours[name]:
                self.same += theirs[name] != b""  # (what both do not answer does not count)
            elif why:
                self.reasons[why][name] += 1
            else:
                self.unexplained += 1
                print("%s, %s of %r: %r, here %r" % (stream, name, data, theirs[name], ours[name]))

    def tell(self):
        print("%s: %d streams, %d answers the same, %d differ for no reason" % (self.kind, self.streams, self.same, self.unexplained))
        for why, names in self.reasons.items():
            print("    %d, %s: %s" % (sum(names.values()), why, ", ".join("%s (%d)" % it for it in sorted(names.items()))))


def compared(options, kind):
    """Compares one terminal, and answers how many answers differ for no reason."""
    tally = Tally(kind)
    for size, given in inputs(options, kind):
        with tempfile.TemporaryDirectory() as folder:
            asked = opened(kind, folder, size)
            colors = asked.colors()
            for stream, data in given:
                tally.add(stream, data, asked.answers(data), answers_here(size, colors, data))
            asked.terminal.end()
    tally.tell()
    return tally.unexplained


def main():
    reader = argparse.ArgumentParser(usage=__doc__.split("Usage: ")[1].split("\n\n")[0], description=__doc__)
    reader.add_argument("--count", type=int, default=300)
    reader.add_argument("--seed", type=int, default=1)
    options = reader.parse_args()
    return 1 if sum([compared(options, kind) for kind in DIFFERENCES]) else 0


if __name__ == "__main__":
    sys.exit(main())
