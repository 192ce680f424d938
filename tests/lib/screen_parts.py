"""What is read of a screen beside what shows: places of the cursor, margins, tab stops, hidden rows; and xterm's 256 colours. Rows worked by
hand from public documents, and read in C, Rust and Python: cases of tests/screen_library.

The documents: the VT510 manual (DECSC, DECRC, DECSTBM, HTS, TBC, DECOM, DECSTR, RIS; its tabs at first stand in each eighth column), XTerm
Control Sequences (1049, SO, SI, `ESC ( 0`), and of xterm's sources XTerm-col.ad (the sixteen) and 256colres.pl (the cube and the greys)."""

from lib.library_shared import failure, run

EIGHTHS = list(range(0, 80, 8))
HOME = (0, 0, "")
# A size, a stream, and what differs from a new screen: places by their numbers, each a row, a column and words; margins; stops; hidden rows,
# in which * stands before what is bold.
ROWS = [
    (80, 24, "", {"stops": EIGHTHS}),
    (80, 24, "\x1b[3g", {"stops": []}),
    (80, 24, "\x1b[9G\x1b[g\x1b[12G\x1bH", {0: (0, 11, ""), "stops": sorted({*EIGHTHS, 11} - {8})}),
    (80, 24, "\x1b[3g\x1b[80G\x1bH\x1bc", {"stops": EIGHTHS}),
    (10, 6, "\x1b[4;4H\x1b[2;5r", {"margins": (1, 5)}),  # which homes the cursor
    (10, 6, "\x1b[3r", {"margins": (2, 6)}),
    (10, 6, "\x1b[2;5r\x1b[r", {}),
    (10, 6, "\x1b[5;2r", {}),  # the upper one is above the lower one
    (10, 6, "\x1b[3;4H\x1b[1;31m\x1b(0\x1b7\x1b[H\x1b[m\x1b(B", {1: (2, 3, "g0_draws bold foreground=1")}),
    (10, 6, "\x1b[3;4H\x1b[1;31m\x1b(0\x1b7\x1b[H\x1b[m\x1b(B\x1b8", {0: (2, 3, "g0_draws bold foreground=1"), 1: (2, 3, "g0_draws bold foreground=1")}),
    (10, 6, "\x1b)0\x0e\x1b7\x0f", {0: (0, 0, "g1_draws"), 1: (0, 0, "g1_draws uses_g1")}),
    (10, 6, "0123456789", {0: (0, 10, "wrap_pending")}),
    (10, 6, "\x1b[3m0123456789\x1b7\r\x1b[23m", {1: (0, 10, "wrap_pending italic")}),
    (10, 6, "\x1b[2;4r\x1b[?6h\x1b[2;3H\x1b7\x1b[?6l", {1: (2, 2, "origin"), "margins": (1, 4)}),
    (10, 6, "\x1b[2;4r\x1b[?6h\x1b[2;3H", {0: (2, 2, "origin"), "margins": (1, 4)}),
    (4, 3, "ab\r\n\x1b[1mcd\x1b[?1049hx", {0: (1, 3, "bold"), 2: (1, 2, "bold"), "hidden": ["ab  ", "*c*d  ", "    "]}),
    (4, 3, "ab\r\n\x1b[1mcd\x1b[?1049hx\x1b[?1049l", {0: (1, 2, "bold"), 1: (1, 2, "bold")}),
    (4, 3, "\x1b7\x1b[2;2H\x1b7\x1b[3;4H\x1b[?1049h\x1b[3m\x1b7\x1b[H", {0: (0, 0, "italic"), 1: (2, 3, "italic"), 2: (2, 3, ""), "hidden": ["    "] * 3}),
    (10, 6, "\x1b[2;4r\x1b[3g\x1b[1m\x1b[2;2H\x1b7\x1b[!p", {0: (1, 1, ""), "stops": []}),
    (10, 6, "\x1b[2;4r\x1b[3g\x1b[3;3H\x1b7ab\x1b[?1049h\x1bc", {}),
]  # fmt: skip
# xterm's: black, red3, green3, yellow3, blue2, magenta3, cyan3 and gray90; gray50, red, green, yellow, rgb:5c/5c/ff, magenta, cyan, white
SIXTEEN = "000000 cd0000 00cd00 cdcd00 0000ee cd00cd 00cdcd e5e5e5 7f7f7f ff0000 00ff00 ffff00 5c5cff ff00ff 00ffff ffffff".split()
STEPS = [0, 95, 135, 175, 215, 255]
COLORS = SIXTEEN + ["%02x%02x%02x" % (red, green, blue) for red in STEPS for green in STEPS for blue in STEPS]
COLORS += ["%02x%02x%02x" % (grey, grey, grey) for grey in range(8, 239, 10)]
SEEN = {67: "5f87af", 196: "ff0000", 231: "ffffff", 232: "080808", 244: "808080", 255: "eeeeee"}  # (as charts of the 256 show them)


def lines_of(columns, rows, wanted):
    """What tests/callers/parts.c and parts.rs write of a row."""
    for which in (0, 1, 2):
        if which < 2 or which in wanted:
            row, column, words = wanted.get(which, HOME)
            yield ("place %d %d %d %s" % (which, row, column, words)).rstrip()
    yield "margins %d %d" % wanted.get("margins", (0, rows))
    yield "stops" + "".join(" %d" % it for it in wanted.get("stops", range(0, columns, 8)))
    yield from ("hidden %d %s" % it for it in enumerate(wanted.get("hidden", [])))


def part_cases(name, program):
    """What a program in C or Rust writes of each row, and of the colours."""
    for columns, rows, stream, wanted in ROWS:
        done = run([program, str(columns), str(rows), stream])
        found, told = done.stdout.decode().splitlines(), list(lines_of(columns, rows, wanted))
        yield "places, margins, stops and hidden rows of %r, in %s" % (stream, name), failure(done) or (None if found == told else "it writes %s" % found)
    done = run([program, "--colors"])
    told = ["color %d %s" % it for it in enumerate(COLORS)]
    yield "xterm's 256 colours, in %s" % name, failure(done) or (None if done.stdout.decode().splitlines() == told else "they are others")


def words_of(place):
    words = [name for name in place._fields[3:] if getattr(place, name) is True]
    words += [name for name in ("bold", "italic") if getattr(place.style, name)]
    return " ".join(words + ["foreground=%d" % it for it in place.style.foreground.values])


def python_cases(ansi):
    """The same of the Python package."""
    for columns, rows, stream, wanted in ROWS:
        screen = ansi.Screen(columns, rows)
        screen.feed(stream)
        told = screen.place, screen.saved, screen.hidden_saved
        found = [it and (*it[:2], words_of(it)) for it in told]
        found += [screen.margins, screen.stops, [screen.hidden_row(row) for row in range(rows)]]
        places = [wanted.get(0, HOME), wanted.get(1, HOME), wanted.get(2)]
        hidden = [text and ["".join("*" * it.style.bold + it.text for it in text)] for text in found.pop()]
        told = places + [wanted.get("margins", (0, rows)), wanted.get("stops", list(range(0, columns, 8)))]
        is_so = found == told and hidden == [[it] for it in wanted.get("hidden", [])] + [None] * (rows - len(wanted.get("hidden", [])))
        yield "places, margins, stops and hidden rows of %r" % stream, None if is_so else "they are %s, %s" % (found, hidden)
        is_so = screen.place[:2] == screen.cursor[:2] and screen.place.style == screen.style and screen.place.origin == screen.modes.origin
        yield "and the cursor is where it is", None if is_so else "it is %s" % (screen.place,)
    found = [ansi.color_rgb(number) for number in range(256)]
    yield "xterm's 256 colours", None if ["%02x%02x%02x" % it for it in found] == COLORS else "they are %s" % found
    yield "as charts have them", None if all(COLORS[number] == it for number, it in SEEN.items()) and len(COLORS) == 256 else "they are others"
    screen = ansi.Screen(4, 3)
    calls = [lambda: ansi.color_rgb(256), lambda: ansi.color_rgb(-1), lambda: ansi.color_rgb("1"), lambda: screen.hidden_row(3)]
    screen.close()
    calls += [lambda: screen.place, lambda: screen.hidden_saved, lambda: screen.margins, lambda: screen.stops, lambda: screen.hidden_row(0)]
    for number, call in enumerate(calls):
        try:
            found = "it is %r" % (call(),)
        except (ValueError, TypeError, IndexError) as error:
            found = None if str(error) else "with no words"
        yield "what is no colour, row or screen, row %d" % number, found
