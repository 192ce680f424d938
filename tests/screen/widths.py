"""How many columns characters take, by Unicode's data: beside the ranges of crates/ansi_screen/specs/Ranges.antt.

    cases()    each set of characters by its name, and which of them the ranges have otherwise

What Unicode 15.0 added is listed here, since Python's data may be older: its 4,489 characters, by DerivedAge.txt,
UnicodeData.txt and EastAsianWidth.txt of that version. Where Debian's package unicode-data is installed, all of these files
are read, and all characters of 15.0 or earlier compared.
"""

import os
import re
import unicodedata

from lib import needs
import twin

ROOT = os.path.dirname(os.path.dirname(os.path.dirname(os.path.realpath(__file__))))
DATA = "/usr/share/unicode"
VERSION = (15, 0)  # of the ranges
ADDED = 4489
NAMED = {0x1FAE8: "SHAKING FACE", 0x1F6DC: "WIRELESS", 0x1E08F: "COMBINING CYRILLIC SMALL LETTER BYELORUSSIAN-UKRAINIAN I"}
# East Asian Width W: letters of Kana, emoji, and CJK ideographs.
TWO = "1B132 1B155 1F6DC 1FA75-1FA77 1FA87-1FA88 1FAAD-1FAAF 1FABB-1FABD 1FABF 1FACE-1FACF 1FADA-1FADB 1FAE8 1FAF7-1FAF8 2B739"
TWO += " 31350-323AF"
# General Category Mn, and Cf: of Lao, Arabic, Khojki, Kawi, hieroglyphs, Cyrillic and Nag Mundari.
NONE = "0ECE 10EFD-10EFF 11241 11F00-11F01 11F36-11F3A 11F40 11F42 13439-13440 13447-13455 1E08F 1E4EC-1E4EF"
ONE = "0CF3 1123F-11240 11B00-11B09 11F02-11F10 11F12-11F35 11F3E-11F3F 11F41 11F43-11F59 1342F 13441-13446 1D2C0-1D2D3"
ONE += " 1DF25-1DF2A 1E030-1E06D 1E4D0-1E4EB 1E4F0-1E4F9 1F774-1F776 1F77B-1F77F 1F7D9"


def numbers(ranges):
    for it in ranges.split():
        first, _, last = it.partition("-")
        yield from range(int(first, 16), int(last or first, 16) + 1)


def added():
    """The columns of each character that Unicode 15.0 added."""
    return {c: columns for columns, ranges in ((0, NONE), (1, ONE), (2, TWO)) for c in numbers(ranges)}


def defined():
    """The columns of each character in the ranges of the definition; of all others it is 1."""
    with open(os.path.join(ROOT, "crates", "ansi_screen", "specs", "Ranges.antt"), encoding="utf-8") as lines:
        parts = lines.read().split("abbrev pub ")[1:]
    found = {}
    for part, columns in zip(reversed(parts), (2, 0)):
        for first, last in re.findall(r"\(0x([0-9A-F]+), 0x([0-9A-F]+)\)", part):
            found.update((c, columns) for c in range(int(first, 16), int(last, 16) + 1))
    return found


def known_to_python():
    """The columns of each character that Python's data has."""
    known = (c for c in range(0x110000) if unicodedata.category(chr(c)) not in ("Cn", "Cs"))
    return {c: columns for c, columns in ((c, twin.columns(chr(c))) for c in known) if columns is not None}


def property_of(folder, name):
    """The value of each character that a file of the Unicode Character Database gives one, of ranges."""
    with open(os.path.join(folder, name), encoding="utf-8") as lines:
        rows = re.findall(r"^([0-9A-F]+)(?:\.\.([0-9A-F]+))?\s*;\s*([\w.]+)", lines.read(), re.M)
    return {c: value for first, last, value in rows for c in range(int(first, 16), int(last or first, 16) + 1)}


def categories(folder):
    found, begun = {}, None
    with open(os.path.join(folder, "UnicodeData.txt"), encoding="utf-8") as lines:
        for line in lines:
            number, name, category, *_ = line.split(";")
            number = int(number, 16)
            found.update((c, category) for c in range(number if begun is None else begun, number + 1))
            begun = number if name.endswith(", First>") else None
    return found


def in_data(folder):
    """The columns of each character of 15.0 or earlier, by the rules of the twin."""
    age, wide, category = property_of(folder, "DerivedAge.txt"), property_of(folder, "EastAsianWidth.txt"), categories(folder)
    found = {}
    for c, it in category.items():
        is_old = tuple(map(int, age.get(c, "99.0").split("."))) <= VERSION
        if is_old and it not in ("Cc", "Cs"):
            is_none = it in ("Mn", "Me", "Cf") and c != 0xAD or 0x1160 <= c <= 0x11FF
            found[c] = 0 if is_none else 2 if wide.get(c) in ("W", "F") else 1
    return found


def cases():
    ranges = defined()
    sets = {"added by Unicode 15.0": added()}
    # Versions before 14 have some characters otherwise, and later ones characters that the ranges don't know.
    if (14, 0) <= tuple(map(int, unicodedata.unidata_version.split(".")[:2])) <= VERSION:
        sets["of Unicode %s, as Python has it" % unicodedata.unidata_version] = known_to_python()
    if os.path.exists(DATA + "/EastAsianWidth.txt"):
        sets["of %s" % DATA] = in_data(DATA)
    else:
        yield needs.left_out("widths of characters of %s" % DATA)
    for name, columns in sets.items():
        wrong = [c for c, it in columns.items() if ranges.get(c, 1) != it]
        names = ["U+%04X %s" % (c, NAMED.get(c, "")) for c in sorted(wrong, key=lambda c: (c not in NAMED, c))[:9]]
        yield "widths of characters %s" % name, "of %s" % ", ".join(names) if wrong else None
    yield "these are all of them", len(added()) != ADDED and "there are %d" % len(added())
