"""What man/ansi_keys.7 says that a program reads, beside what the library writes: each row of its tables, by a screen of its own."""

import re

NAMES = {"ESC": b"\x1b", "CSI": b"\x1b[", "SS3": b"\x1bO", "SP": b" ", "SOH": b"\x01", "BS": b"\b", "TAB": b"\t", "CR": b"\r", "DEL": b"\x7f"}
ROW = re.compile(r'(?m)^\.It (?!Em)("[^"]*"|\S+) Ta ("[^"]*"|\S+) Ta ("[^"]*"|\S+)$')
HELD = ["shift", "alt", "ctrl"]
ROWS = 70  # so many at least has the page
COLUMN, LINE = 0, 1  # where the mouse is, as the page says


def bytes_of(words):
    """Those that the page writes so."""
    return b"".join(NAMES.get(it) or it.encode() for it in words.replace(r"\(dq", '"').split())


def read_by(screen, words):
    """The bytes that a program reads of a key, or of what else the page names."""
    first, *rest = words.split()
    if first == "paste":
        return screen.paste(*rest)
    if first == "focus":
        return screen.focus({"gained": True, "lost": False}[rest[0]])
    if first in ("press", "move") or (first == "release" and rest[0] in ("left", "right")):
        return screen.mouse(first, row=LINE, column=COLUMN, button=rest[0] if rest else "")
    event, key = ("release", rest[0]) if first == "release" else ("press", first)
    *held, name = key.split("-")
    return screen.key(name, event=event, **{it: it in held for it in HELD})


def cases(Screen, page):
    rows = [[it.strip('"') for it in row] for row in ROW.findall(page)]
    yield "man/ansi_keys.7 has tables", None if len(rows) >= ROWS else "they have %d rows" % len(rows)
    for asked, words, told in rows:
        screen = Screen(4, 3)
        screen.feed(bytes_of(asked))
        found, wanted = read_by(screen, words), bytes_of(told)
        yield "man/ansi_keys.7: %s %s" % (asked, words), None if found == wanted else "it is %r" % found
