"""What `ansi2html --shown` must write with --lines, --urls and --no-hidden, by hand: the lines that a screen showed, which
tests/lib/expected_shown.py has, as these options have the lines of a stream. Each row stands on a screen of any size."""

from itertools import product

from lib.expected_pages import LINED_HEAD, PAGE_HEAD, PAGE_TAIL, in_blocks_begun, numbered
from lib.modes import Mode
from lib.url_rows import address

BOLD = b'<span style="font-weight:bold;">%s</span>'
LINK = b'<a rel="nofollow noreferrer" href="http://a/" style="color:inherit;">%s</a>'
IN_LINK = b"\x1b]8;;http://a/\x1b\\%s\x1b]8;;\x1b\\"
HIDDEN = b'<span style="visibility:hidden;">%s</span>'
WIDE = "漢".encode()
LONG = b"https://example.org/a/path/of/more/than/a/row?of=20&and=more-than-80-columns-in-all-as-this-one-is"
LONG_LINK = address(LONG)

# What is read, and each line of what is written: the same with addresses as links and without, with hidden text and without.
FURTHER_ROWS = [
    ("nothing", b"", []),
    ("a progress bar", b"10%\r\x1b[K50%\r\x1b[K100%\nok\n", [b"100%\n", b"ok\n"]),
    ("a last line without its line feed", b"a<\nb", [b"a&lt;\n", b"b\n"]),
    ("lines over one that was written", b"a\nb\n\x1b[Axyz\n", [b"a\n", b"xyz\n"]),
    ("a line of many rows", b"a" * 205 + b"\nb\n", [b"a" * 205 + b"\n", b"b\n"]),
    ("wide characters over many rows", WIDE * 55 + b"\n", [WIDE * 55 + b"\n"]),
    ("marks", "e\u0301漢\u0301\u0302x\n".encode(), ["e\u0301漢\u0301\u0302x\n".encode()]),
    ("empty lines", b"a\n\n\nb\n\n", [b"a\n", b"\n", b"\n", b"b\n"]),
    ("lines that scroll off", b"x\n" * 60, [b"x\n"] * 60),
    ("a style over lines", b"\x1b[1ma\nb\x1b[m c\n", [BOLD % b"a" + b"\n", BOLD % b"b" + b" c\n"]),
    ("a style over rows", b"\x1b[1m" + b"a" * 99 + b"\x1b[mb\n", [BOLD % (b"a" * 99) + b"b\n"]),
    ("a link over lines", IN_LINK % b"a\nb" + b"c\n", [LINK % b"a" + b"\n", LINK % b"b" + b"c\n"]),
    ("a link over rows", IN_LINK % (b"a" * 99) + b"\n", [LINK % (b"a" * 99) + b"\n"]),
    ("a style in a link", IN_LINK % b"a\x1b[1mb\x1b[m" + b"\n", [LINK % (b"a" + BOLD % b"b") + b"\n"]),
    ("an address in a link", IN_LINK % b"http://b" + b"\n", [LINK % b"http://b" + b"\n"]),
    ("a link that was written over", IN_LINK % b"abc" + b"\r\x1b[Kd\n", [b"d\n"]),
    ("a place passed over", b"\x1b[1ma\x1b[4Gb\x1b[m\n", [BOLD % b"a" + b"  " + BOLD % b"b" + b"\n"]),
    ("the alternate screen at the end", b"a\n\x1b[?1049h\x1b[Hb", [b"a\n", b"b\n"]),
]

URLS_FURTHER_ROWS = [
    ("an address", b"see http://a.\n", [b"see " + address(b"http://a") + b".\n"]),
    ("an address over rows", b"at " + LONG + b" x\n", [b"at " + LONG_LINK + b" x\n"]),
    ("an address behind wide characters", WIDE * 9 + b" " + LONG + b"\n", [WIDE * 9 + b" " + LONG_LINK + b"\n"]),
    ("an address written over", b"http://abc\r\x1b[7C\x1b[Kd\n", [address(b"http://d") + b"\n"]),
    ("an address at the end", b"http://a", [address(b"http://a") + b"\n"]),
    ("two on two lines", b"http://a\nhttp://b\n", [address(b"http://a") + b"\n", address(b"http://b") + b"\n"]),
]

HIDDEN_FURTHER_ROWS = [
    ("hidden text", b"a\x1b[8mbc\x1b[28md\n", [b"ad\n"]),
    ("a line that is hidden", b"a\n\x1b[8mb\x1b[m\nc\n", [b"a\n", b"\n", b"c\n"]),
    ("hidden text over rows", b"a\x1b[8m" + b"b" * 99 + b"\x1b[mc\n", [b"ac\n"]),
    ("hidden text that was written over", b"\x1b[8mabc\x1b[m\rxy\x1b[K\n", [b"xy\n"]),
    ("a style behind what is hidden", b"\x1b[8ma\x1b[0;1mb\x1b[m\n", [BOLD % b"b" + b"\n"]),
]

SHOWN_TOO_ROWS = [("text that is hidden", b"a\x1b[8mbc\x1b[28md\n", [b"a" + HIDDEN % b"bc" + b"d\n"])]


def further_mode(size, has_lines, has_urls, no_hidden, on_page):
    """The mode of these options, of a fragment or of a page."""
    words = ["--shown=" + size] + ["--lines"] * has_lines + ["--urls"] * has_urls + ["--no-hidden"] * no_hidden + ["--fragment"] * (not on_page)
    rows = FURTHER_ROWS + URLS_FURTHER_ROWS * has_urls + (HIDDEN_FURTHER_ROWS if no_hidden else SHOWN_TOO_ROWS)
    one = numbered if has_lines else lambda number, line: line
    text = lambda lines: b"".join(one(number, line) for number, line in enumerate(lines, 1))
    whole = lambda lines: in_blocks_begun(text(lines)) if on_page else text(lines)
    line = (b"\x1b[mA\x1b[K\n", (lambda number: numbered(number, b"A\n")) if has_lines else b"A\n")
    head, tail = ((LINED_HEAD if has_lines else PAGE_HEAD), PAGE_TAIL) if on_page else (b"", b"")
    return Mode(words, [(name, given, whole(lines)) for name, given, lines in rows], line, [], head, tail, waits=True, has_blocks=on_page)


def by_classes(mode):
    """The same, where styles are said by classes."""
    classed = lambda html: html.replace(b'style="font-weight:bold;"', b'class="ansi-bold"').replace(b'style="color:inherit;"', b'class="ansi-link"')
    rows = [(name, given, classed(html)) for name, given, html in mode.rows if b"visibility" not in html]
    return Mode([*mode.words, "--classes"], rows, mode.line, [], mode.head, mode.tail, waits=True, has_blocks=mode.has_blocks)


FURTHER_MODES = [
    further_mode(size, has_lines, has_urls, no_hidden, on_page)
    for (size, on_page), (has_lines, has_urls, no_hidden) in product((("20x6", False), ("80x24", True)), product((False, True), repeat=3))
    if has_lines or has_urls or no_hidden
]
FURTHER_MODES += [by_classes(further_mode("80x24", True, True, no_hidden, False)) for no_hidden in (False, True)]
