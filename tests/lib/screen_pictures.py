"""Pictures of a screen, by Python: of tests/screen_library. Of generated streams in pieces, drawn in each way, they are the bytes that ansi2svg
writes; and hostile streams, titles and fonts bring nothing in but what tests/lib/svg.py lets stand."""

import random

from lib import pages
from lib import svg
from lib.library_shared import run

SIZE = 20, 5
SCHEMES = {"both": [], "light": ["--light"], "dark": ["--dark"]}
NAMES = ["", "The build", "<b>&\"'", "\u6f22 e\u0301", "\x01\t\x7f\x85\ufffe", "]]>", "url(http://a/)"]
SHOWN = 1000  # rows that left, of which --shown draws the last


def fed(ansi, size, stream, **given):
    """A screen that was fed a stream in pieces."""
    screen = ansi.Screen(*size, **given)
    for at in range(0, len(stream), 7):
        screen.feed(stream[at : at + 7])
    return screen


def ways(pick):
    """A way to draw, as the words of ansi2svg and as those of Python."""
    scheme, title, font = pick.choice(list(SCHEMES)), pick.choice(NAMES), pick.choice(NAMES)
    flags = {name: pick.random() < 0.5 for name in ("history", "cursor", "window")}
    words = [*SCHEMES[scheme], *(it for it, name in (("--shown", "history"), ("--cursor", "cursor"), ("--window", "window")) if flags[name])]
    words += ["--title=" + title] * bool(title) + ["--font=" + font] * bool(font)
    return words, {"scheme": scheme, "title": title, "font": font, **flags}


def python_cases(ansi, streams, ansi2svg):
    yield from same_cases(ansi, list(streams), ansi2svg)
    yield from hostile_cases(ansi)
    screen = ansi.Screen(4, 2)
    found = screen.to_svg() == screen.to_svg("both", False, cursor=False, window=False, title="", font="")
    yield "it is of what shows, for light and dark pages, if not asked otherwise", None if found else "it is %r" % screen.to_svg()
    found = svg.Picture(screen.to_svg(title="a\udcff").encode()).title
    yield "a surrogate in a title is U+FFFD", None if found == "a\ufffd" else "it is %r" % found


def same_cases(ansi, streams, ansi2svg):
    """Pictures of what shows, and of all that did, beside the program."""
    pick, wrong, scrolled = random.Random(31), [], 0
    for stream in streams:
        stream = (stream[:3000] + b"\r\n") * 3
        words, given = ways(pick)
        if given["history"]:
            screen = fed(ansi, SIZE, stream.replace(b"\n", b"\r\n"), history=SHOWN)
            scrolled += screen.history.left > 0
        else:
            screen = fed(ansi, SIZE, stream)
        wanted = run([ansi2svg, "--size=%dx%d" % SIZE, *words], stream).stdout.decode()
        if screen.to_svg(**given) != wanted:
            wrong.append((stream, words))
    few = None if scrolled > len(streams) // 10 else "few rows left, of %d streams" % scrolled
    yield "on generated streams pictures are those of ansi2svg", "not of %r" % (wrong[0],) if wrong else few
    screen = fed(ansi, (4, 2), b"a\r\n" * 1500 + b"b", history=2000)
    wanted = run([ansi2svg, "--size=4x2", "--shown"], b"a\n" * 1500 + b"b").stdout.decode()
    yield "of many rows that left the last are drawn", None if screen.to_svg(history=True) == wanted else "it is another"


def hostile_cases(ansi):
    for name, stream in pages.STREAMS.items():
        screen = fed(ansi, (80, 24), stream, history=100)
        faults = [it for history in (False, True) for it in svg.Picture(screen.to_svg(history=history).encode()).faults]
        yield "no markup comes in by the stream %r" % name, "; ".join(faults) or None
    for name in NAMES:
        picture = svg.Picture(ansi.Screen(4, 2).to_svg(title=name, font=name, window=True).encode())
        yield "nor by the title and the fonts %r" % name, "; ".join(picture.faults) or None
