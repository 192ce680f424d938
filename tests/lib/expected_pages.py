"""What stands around the text of a page: rows for tests/lib/expected.py, after the HTML standard and CSS."""

import re

# A whole page. By the HTML standard: its DOCTYPE first, or browsers draw it by the rules of old
# pages (13.1.1); its language, for readers that speak it (3.2.6.2); its charset within the first
# 1,024 bytes (4.2.5.4); a title (4.2.2); the
# elements in order; and after <pre> a line feed, which a reader drops, so that one that begins
# the text stays (13.1.2.5). `viewport` keeps a phone from drawing it at a desk's width,
# `color-scheme` has it light or dark as its reader has all else (CSS Color Adjustment, 2.1), and
# `pre-wrap` and `anywhere` wrap long lines (CSS Text (level 3), 3 and 5.5).
HEAD_BEGIN = b"""\
<!DOCTYPE html>
<html lang="en">
<head>
<meta charset="utf-8">
<meta name="viewport" content="width=device-width">
<title>Terminal output</title>
"""
PAGE_HEAD = HEAD_BEGIN + b"""\
<style>
:root { color-scheme: light dark; }
pre { white-space: pre-wrap; overflow-wrap: anywhere; }
pre > [data-lines] { display: block; content-visibility: auto; contain-intrinsic-height: auto 500lh; }
</style>
</head>
<body>
<pre>
"""
PAGE_TAIL = b"""\
</pre>
</body>
</html>
"""

TITLE = "a<b>&\"' </title><script>"
TITLED_HEAD = PAGE_HEAD.replace(b"Terminal output", b"a&lt;b&gt;&amp;&quot;&#39; &lt;/title&gt;&lt;script&gt;")

# A page whose rules are in a stylesheet elsewhere.
ADDRESS = "a.css?b=\"><'&c"
LINKED_HEAD = HEAD_BEGIN + b"""\
<meta name="color-scheme" content="light dark">
<link rel="stylesheet" href="a.css?b=&quot;&gt;&lt;&#39;&amp;c">
</head>
<body>
<pre class="ansi-wrap">
"""
LINKED_SCROLLED_HEAD = LINKED_HEAD.replace(b' class="ansi-wrap"', b"")

# A browser lays out a block of lines once it is in sight (CSS Containment, 4): each has 500 lines, and the last one what is left.
BLOCK_BEGIN, BLOCK_END, BLOCK = b'<span data-lines="500">', b"</span>", 500


def line_in_blocks(number, html):
    return (BLOCK_BEGIN if number % BLOCK == 1 else b"") + html + (BLOCK_END if number % BLOCK == 0 else b"")


def blocks_begun(html):
    """The HTML with its only block begun, where it leaves that away."""
    return html if html.startswith(BLOCK_BEGIN) or not html else BLOCK_BEGIN + html


def blocks_ended(html):
    """The same with its last block ended, where that has room for more lines."""
    html = blocks_begun(html)
    return html + BLOCK_END * (html.count(BLOCK_BEGIN) > html.count(b"\n") // BLOCK)


def in_blocks(html):
    """HTML in blocks, each element of which ends in its line."""
    lines = re.findall(rb"[^\n]*\n|[^\n]+", html)
    return b"".join(BLOCK_BEGIN + b"".join(lines[at : at + BLOCK]) + BLOCK_END for at in range(0, len(lines), BLOCK))


def in_blocks_begun(html):
    """The same, where the last block is not ended yet if it has room for more lines."""
    whole = in_blocks(html)
    return whole if html.count(b"\n") % BLOCK == 0 else whole.removesuffix(BLOCK_END)


# Lines that can be linked to (HTML, 3.2.6 and 7.4.6.4): each is one element of the text, whose `id` is L and its number, with a
# link of no text to itself that has the number in an attribute, which the page's rules draw.
def numbered(number, html):
    return b'<span id="L%d"><a href="#L%d" data-line="%d"></a>%s</span>' % (number, number, number, html)


LINE_RULES = b"""\
pre [id^=L] { display: block; padding-left: 9ch; }
pre [id^=L]:target { box-shadow: inset 4px 0 #bf8700; }
[data-line] { float: left; margin-left: -8ch; min-width: 7ch; text-align: right; text-decoration: none; %s }
[data-line]::before { content: attr(data-line); }
@media (max-width: 40em) {
pre [id^=L] { padding-left: 6ch; }
[data-line] { margin-left: -6ch; min-width: 5ch; }
}
"""
NUMBER_COLORS = {
    b"both": b"color: #59636e; color: light-dark(#59636e, #9198a1);",
    b"light": b"color: #59636e;",
    b"dark": b"color: #9198a1;",
}
TEXT_RULES = b"""\
pre { white-space: pre-wrap; overflow-wrap: anywhere; }
pre > [data-lines] { display: block; content-visibility: auto; contain-intrinsic-height: auto 500lh; }
"""
# (where lines are not wrapped, the longest one of a block would be cut off at the page's width)
SCROLLED_RULES = b"""\
pre { white-space: pre; }
pre > [data-lines] { display: block; width: max-content; min-width: 100%; content-visibility: auto; contain-intrinsic-height: auto 500lh; }
"""
LINED_HEAD = PAGE_HEAD.replace(TEXT_RULES, LINE_RULES % NUMBER_COLORS[b"both"] + TEXT_RULES)
SCROLLED_HEAD = PAGE_HEAD.replace(TEXT_RULES, SCROLLED_RULES)

# The same for light pages alone, and for dark ones: black on white, and white on Chromium's dark ground.
ROOT = b":root { color-scheme: light dark; }"
LIGHT_HEAD = PAGE_HEAD.replace(ROOT, b":root { color-scheme: light; color: #000000; background-color: #ffffff; }")
DARK_TITLED_HEAD = TITLED_HEAD.replace(ROOT, b":root { color-scheme: dark; color: #ffffff; background-color: #121212; }")
LIGHT_LINED_HEAD = LIGHT_HEAD.replace(TEXT_RULES, LINE_RULES % NUMBER_COLORS[b"light"] + TEXT_RULES)
DARK_LINED_HEAD = PAGE_HEAD.replace(ROOT, b":root { color-scheme: dark; color: #ffffff; background-color: #121212; }").replace(
    TEXT_RULES, LINE_RULES % NUMBER_COLORS[b"dark"] + SCROLLED_RULES
)


def line_rows(red, link):
    """Rows in lines. What `red` makes of a text is its span, and what `link` makes of one its link to http://a/."""
    return [
        ("nothing", b"", b""),
        ("a line", b"a<\n", numbered(1, b"a&lt;\n")),
        ("a last line without its line feed", b"a\nb", numbered(1, b"a\n") + numbered(2, b"b")),
        ("empty lines", b"\n\na", numbered(1, b"\n") + numbered(2, b"\n") + numbered(3, b"a")),
        ("ten lines", b"x\n" * 10, b"".join(numbered(n, b"x\n") for n in range(1, 11))),
        ("a carriage return in a line, and before its end", b"a\rb\r\nc\r", numbered(1, b"a&#13;<br>b&#13;\n") + numbered(2, b"c&#13;")),
        ("a style over lines", b"\x1b[31mh\n\ni\x1b[m\nj", b"".join(numbered(n, it) for n, it in enumerate((red(b"h\n"), red(b"\n"), red(b"i") + b"\n", b"j"), 1))),
        ("a style after the last line", b"a\n\x1b[31m", numbered(1, b"a\n")),
        ("a style that begins at a line feed", b"a\x1b[31m\nb", numbered(1, b"a" + red(b"\n")) + numbered(2, red(b"b"))),
        (
            "a link over lines",
            b"\x1b]8;;http://a/\x07a\n\x1b[31mb\n\x1b]8;;\x07c",
            numbered(1, link(b"a\n")) + numbered(2, link(red(b"b\n"))) + numbered(3, red(b"c")),
        ),
        ("a title among the lines", b"a\n\x1b]0;t\x07\x07b\n", numbered(1, b"a\n") + numbered(2, b"b\n")),
        *[(name, OSC_LINK % uri + text, lines_of(lambda it: link(it).replace(b"http://a/", uri.replace(b"&", b"&amp;")), *lines)) for name, uri, text, *lines in LINKS_OVER_LINES],
    ]


# Links that can pay to stand in the next line and that can't: a byte of text earns 25 bytes of a link as it is written, and a line feed 100
# (man/ansi2html.1). Each line follows, those with the link first.
OSC_LINK = b"\x1b]8;;%s\x07"
LINKS_OVER_LINES = [
    ("a link of 100 bytes over empty lines", b"http://" + b"a" * 93, b"\n" * 20, [b"\n"] * 20, []),
    ("one of 101 bytes", b"http://" + b"a" * 94, b"\n\nx", [b"\n"], [b"\n", b"x"]),
    ("one of 97 as it is written", b"http://" + b"&" * 18, b"\n\n", [b"\n", b"\n"], []),
    ("one of 102 as it is written", b"http://" + b"&" * 19, b"\n\n", [b"\n"], [b"\n"]),
    ("one of 150 bytes over a line of two", b"http://" + b"a" * 143, b"xx\ny\nz", [b"xx\n", b"y\n"], [b"z"]),
    ("one of 1,000 bytes over lines of 36", b"http://" + b"a" * 993, (b"x" * 36 + b"\n") * 30, [b"x" * 36 + b"\n"] * 30, []),
    ("one of 1,000 bytes over lines of 35", b"http://" + b"a" * 993, (b"x" * 35 + b"\n") * 2, [b"x" * 35 + b"\n"], [b"x" * 35 + b"\n"]),
]


def lines_of(link, linked, plain):
    """The lines, one after another, those with the link first."""
    return b"".join(numbered(number, it) for number, it in enumerate([link(it) for it in linked] + plain, 1))


def block_rows(red, line):
    """Rows of more lines than a block has. What `line` makes of a number and a text is that line."""
    lines = lambda first, last, text: b"".join(line(number, text) for number in range(first, last + 1))
    is_each = line(1, b"") != b""
    styled = lambda first, last: lines(first, last, red(b"x\n")) if is_each else red(b"x\n" * (last - first + 1))
    end = lambda text: BLOCK_END + (BLOCK_BEGIN + text if text else b"")
    return [
        ("500 lines", b"x\n" * 500, BLOCK_BEGIN + lines(1, 500, b"x\n") + end(b"")),
        ("501 lines", b"\n" * 501, BLOCK_BEGIN + lines(1, 500, b"\n") + end(line(501, b"\n"))),
        ("500 lines and a half", b"x\n" * 500 + b"y", BLOCK_BEGIN + lines(1, 500, b"x\n") + end(line(501, b"y"))),
        ("a style after 500 lines", b"x\n" * 500 + b"\x1b[31m", BLOCK_BEGIN + lines(1, 500, b"x\n") + end(b"")),
        ("a style over two blocks", b"\x1b[31m" + b"x\n" * 502, BLOCK_BEGIN + styled(1, 500) + end(styled(501, 502))),
        ("three blocks", b"x\n" * 1001, BLOCK_BEGIN + lines(1, 500, b"x\n") + end(lines(501, 1000, b"x\n")) + end(line(1001, b"x\n"))),
    ]


def shown_block_rows(red):
    """Rows of what a screen of 1,000 columns and 100 rows showed, around the ends of blocks: a line of several rows is one line."""
    lines, wide = lambda count, text=b"x\n": BLOCK_BEGIN + text * count + BLOCK_END * (count == BLOCK), b"a" * 2500
    return [
        ("no line", b"\n\n", b""),
        ("499 lines", b"x\n" * 499, lines(499)),
        ("500 lines", b"x\n" * 500, lines(500)),
        ("501 lines, of which the last has no line feed", b"x\n" * 500 + b"x", lines(500) + lines(1)),
        ("three blocks", b"x\n" * 1001, lines(500) + lines(500) + lines(1)),
        ("empty lines over two blocks", b"\n" * 502 + b"x", lines(500, b"\n") + lines(2, b"\n") + b"x\n"),
        ("a style over two blocks", b"\x1b[31m" + b"x\n" * 502, lines(500, red(b"x") + b"\n") + lines(2, red(b"x") + b"\n")),
        ("lines of two rows", (b"a" * 1001 + b"\n") * 501, lines(500, b"a" * 1001 + b"\n") + lines(1, b"a" * 1001 + b"\n")),
        ("a last line of three rows in a block", b"x\n" * 499 + wide + b"\nx\n", lines(499) + wide + b"\n" + BLOCK_END + lines(1)),
        ("a first line of three rows", b"x\n" * 500 + wide + b"\n", lines(500) + lines(1, wide + b"\n")),
        ("a last line that is open at the end", b"x\n" * 499 + wide, lines(499) + wide + b"\n" + BLOCK_END),
        ("the alternate screen at the end, after 500 lines", b"x\n" * 500 + b"\x1b[?1049h\x1b[Hy", lines(500) + lines(1, b"y\n")),
    ]
