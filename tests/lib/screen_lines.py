"""Rows that left a screen and rows that show, as lines, by Python: of tests/screen_library. Worked rows as tmux joins them, and generated
streams beside ansi2text and ansi2html with --shown."""

import random

from lib import as_read
from lib.library_shared import run

# Streams, and what a screen of 4 columns and 3 rows has as lines: of what left it, of what shows, and of both. So tmux 3.3a writes them
# (`capture-pane -J`, with `-S - -E -1`, with nothing, and with `-S -`).
JOINED = [
    ("abcdef\r\nx \r\ny\r\nz\r\nw", "abcdef\nx \n", "y\nz\nw\n", "abcdef\nx \ny\nz\nw\n"),
    ("ab\r\ncd  \r\ne\r\nf\r\ng", "ab\ncd  \n", "e\nf\ng\n", "ab\ncd  \ne\nf\ng\n"),
    ("abcdefghijklmnop\r\n1", "abcdefgh\n", "ijklmnop\n1\n", "abcdefghijklmnop\n1\n"),
    ("abcd\x1b[41m    \x1b[m\r\n1\r\n2\r\n3", "abcd    \n", "1\n2\n3\n", "abcd    \n1\n2\n3\n"),
    ("abcd\r\n1\r\n2\r\n3", "abcd\n", "1\n2\n3\n", "abcd\n1\n2\n3\n"),
    ("ab\x1b[2Cc\r\n1\r\n2\r\n3", "ab c\n", "1\n2\n3\n", "ab c\n1\n2\n3\n"),
]
SIZE = 20, 5
STYLINGS = {"both": [], "light": ["--light"], "dark": ["--dark"], "classes": ["--classes"]}


def python_cases(ansi, streams, ansi2text, ansi2html):
    for stream, *wanted in JOINED:
        screen = ansi.Screen(4, 3, history=100)
        screen.feed(stream)
        found = [screen.history.text(joined=True), screen.text(joined=True), screen.text(history=True)]
        yield "the lines of %r, and of what left" % stream, None if found == wanted else "they are %r" % found
    yield from html_cases(ansi)
    yield from shown_cases(ansi, list(streams), ansi2text, ansi2html)


def html_cases(ansi):
    """HTML of rows that left: with their styles and links, of those that are kept."""
    screen = ansi.Screen(4, 2, history=2)
    screen.feed("lost\r\n\x1b[1mbold\x1b[m\r\n\x1b]8;;http://x\x1b\\l\x1b]8;;\x1b\\<xyz\r\n")
    link = '<a rel="nofollow noreferrer" href="http://x" style="color:inherit;">l</a>'
    bold = '<span style="font-weight:bold;">bold</span>\n'
    found = [screen.history.to_html("light"), screen.to_html("light"), screen.to_html("light", history=True)]
    wanted = [bold + link + "&lt;xy\n", "z\n", bold + link + "&lt;xyz\n"]
    yield "rows that left are HTML", None if found == wanted else "they are %r" % found
    found = screen.history.text(), screen.history.text(joined=False), screen.text(), screen.text(False, True)
    wanted = "bold\nl<xy\n", "bold\nl<xy\n", "z\n", "bold\nl<xyz\n"
    yield "as text they are joined where that is asked", None if found == wanted else "they are %r" % (found,)
    screen.feed("\x1b[31mr\r\n\r\n")
    is_so = screen.history.to_html() == screen.history.to_html("both") != screen.history.to_html("light")
    yield "for light and dark pages, if not asked otherwise", None if is_so else "it is %r" % screen.history.to_html()


def shown_cases(ansi, streams, ansi2text, ansi2html):
    """All lines of a screen that keeps all that left it, beside the programs; and each part beside the whole."""
    pick, wrong, scrolled = random.Random(97), [], 0
    word = "--shown=%dx%d" % SIZE
    for stream in streams:
        stream = stream.replace(b"\n", b"\r\n")[:3000] * 3
        screen = ansi.Screen(*SIZE, history=5000)
        for at in range(0, len(stream), 11):
            screen.feed(stream[at : at + 11])
        styling = pick.choice(list(STYLINGS))
        log = as_read.ignored(stream)
        text = run([ansi2text, word], log).stdout.decode()
        html = run([ansi2html, "--fragment", word, *STYLINGS[styling]], log).stdout.decode()
        found = screen.text(joined=True, history=True), screen.to_html(styling, history=True)
        if found != (text, html):
            wrong.append((stream, styling))
        left, shown = screen.history, screen.modes.alternate_screen
        if len(left) and not left[-1][-1].goes_on and not shown:
            scrolled += 1
            parts = left.text(joined=True) + screen.text(joined=True), left.to_html("classes") + screen.to_html("classes")
            if parts != (text, screen.to_html("classes", history=True)):
                wrong.append((stream, "parts"))
    few = None if scrolled > len(streams) // 10 else "few rows left, of %d streams" % scrolled
    yield "on generated streams lines are those of --shown", "not of %r" % (wrong[0],) if wrong else few
