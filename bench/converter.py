#!/usr/bin/env python3
"""The peer of `ansi.to_html` in bench/python.py: a converter to HTML in Python over regular expressions, as
ansi2html of PyPI and its like go.

Usage: bench/converter.py < stream > fragment.html

An expression finds the sequences, the text between two is escaped, each Select Graphic Rendition changes a
style, and a span is opened where the style is another. It knows less than the library does: no contrast, no
dark pages, no links, no broken characters.
"""

import re
import sys

# a Select Graphic Rendition, with its numbers; any other control sequence; strings up to their end; other escapes
SEQUENCE = re.compile(
    r"\x1b(?:\[([0-9;:]*)m|\[[0-?]*[ -/]*[@-~]|\][^\x07\x1b]*(?:\x07|\x1b\\)|[PX^_][^\x1b]*\x1b\\|[ -/]*[0-~])"
)
BASIC = "000000 cd0000 00cd00 cdcd00 0000ee cd00cd 00cdcd e5e5e5 7f7f7f ff0000 00ff00 ffff00 5c5cff ff00ff 00ffff ffffff"
LEVELS = (0, 95, 135, 175, 215, 255)
PALETTE = ["#" + it for it in BASIC.split()]
PALETTE += ["#%02x%02x%02x" % (r, g, b) for r in LEVELS for g in LEVELS for b in LEVELS]
PALETTE += ["#%02x%02x%02x" % ((8 + 10 * at,) * 3) for at in range(24)]
ATTRIBUTES = {
    1: "font-weight:bold", 2: "opacity:.5", 3: "font-style:italic", 4: "text-decoration:underline",
    8: "visibility:hidden", 9: "text-decoration:line-through", 53: "text-decoration:overline",
}  # fmt: skip
ENDS = {22: (1, 2), 23: (3,), 24: (4,), 28: (8,), 29: (9,), 55: (53,)}
GROUNDS = {38: "color", 48: "background-color"}


def colour(numbers, at):
    """The colour that stands behind 38 or 48, and how many numbers it has."""
    kind = numbers[at + 1] if at + 1 < len(numbers) else 0
    if kind == 5 and at + 2 < len(numbers):
        return PALETTE[numbers[at + 2] & 255], 3
    if kind == 2 and at + 4 < len(numbers):
        return "#%02x%02x%02x" % tuple(it & 255 for it in numbers[at + 2 : at + 5]), 5
    return None, len(numbers)


def change(style, words):
    """Changes a style, a dict of what is set, by the numbers of a sequence."""
    numbers = [int(it) if it else 0 for it in words.replace("::", ":").replace(":", ";").split(";")]
    at = 0
    while at < len(numbers):
        number = numbers[at]
        at += 1
        if number == 0:
            style.clear()
        elif number in ATTRIBUTES:
            style[number] = ATTRIBUTES[number]
        elif number in ENDS:
            for it in ENDS[number]:
                style.pop(it, None)
        elif number in GROUNDS:
            found, count = colour(numbers, at - 1)
            at += count - 1
            if found:
                style[number] = "%s:%s" % (GROUNDS[number], found)
        elif 30 <= number < 38 or 90 <= number < 98:
            style[38] = "color:" + PALETTE[number - 30 if number < 38 else number - 82]
        elif 40 <= number < 48 or 100 <= number < 108:
            style[48] = "background-color:" + PALETTE[number - 40 if number < 48 else number - 92]
        elif number in (39, 49):
            style.pop(number - 1, None)


def to_html(text):
    """The HTML of terminal output, a str."""
    text = text.replace("&", "&amp;").replace("<", "&lt;").replace(">", "&gt;")
    text = text.replace('"', "&quot;").replace("'", "&#x27;")  # (as html.escape does)
    parts, style, shown, at = [], {}, "", 0
    for found in SEQUENCE.finditer(text):
        parts.append(text[at : found.start()])
        at = found.end()
        words = found[1]
        if words is None:
            continue
        change(style, words)
        css = ";".join(style.values())
        if css != shown:
            parts.append(("</span>" if shown else "") + ('<span style="%s">' % css if css else ""))
            shown = css
    parts += [text[at:], "</span>" if shown else ""]
    return "".join(parts)


if __name__ == "__main__":
    if sys.argv[1:]:
        print(__doc__.strip())
        sys.exit(0 if sys.argv[1:] == ["--help"] else 2)
    stream = sys.stdin.buffer.read().decode(errors="replace")
    sys.stdout.buffer.write(to_html(stream).encode())
