#!/usr/bin/env python3
"""Writes the ranges of characters that take no column, and of those that take two, from
Unicode's own files, as Debian's package unicode-data brings them (15.0.0); and a table of all
characters, by which their columns are found.

Usage: make_widths.py [FOLDER]          (/usr/share/unicode)

No column: the general categories Mn, Me and Cf of UnicodeData.txt but for U+00AD, and U+1160 to
U+11FF. Two columns: W and F of EastAsianWidth.txt, but for those. It writes specs/Ranges.antt and
src/width/table.rt beside itself; with the same files it writes the same.
"""

import os
import sys

HERE = os.path.dirname(os.path.realpath(__file__))
NO_COLUMN = ("Mn", "Me", "Cf")
JAMO = range(0x1160, 0x1200)
SOFT_HYPHEN = 0xAD
# the table: so many characters, and in a word of it, and so many words in a group; what a byte can number
CHARACTERS, IN_WORD, IN_GROUP, NUMBERED = 0x110000, 32, 32, 256


def categories(folder):
    """The general category of each character that has one."""
    found, first = {}, 0
    with open(os.path.join(folder, "UnicodeData.txt")) as lines:
        for line in lines:
            fields = line.split(";")
            number = int(fields[0], 16)
            if not fields[1].endswith("Last>"):
                first = number
            for each in range(first, number + 1):
                found[each] = fields[2]
    return found


def wide(folder):
    """The characters of East Asian Width W and F."""
    found = set()
    with open(os.path.join(folder, "EastAsianWidth.txt")) as lines:
        for line in lines:
            numbers, _, width = line.split("#")[0].strip().partition(";")
            if width.strip() in ("W", "F"):
                first, _, last = numbers.strip().partition("..")
                found |= set(range(int(first, 16), int(last or first, 16) + 1))
    return found


def version(folder):
    with open(os.path.join(folder, "EastAsianWidth.txt")) as lines:
        return lines.readline().split("-")[1].split(".txt")[0]


def ranges(numbers):
    found = []
    for number in sorted(numbers):
        if found and found[-1][1] + 1 == number:
            found[-1][1] = number
        else:
            found.append([number, number])
    return found


def table(zero, two):
    """For each 1,024 characters the number of their group; for each group the numbers of its words; and the words."""
    columns = [0 if each in zero else 2 if each in two else 1 for each in range(CHARACTERS)]
    each_word, words = numbered(word_of(part) for part in parts_of(columns, IN_WORD))
    index, groups = numbered(tuple(part) for part in parts_of(each_word, IN_GROUP))
    return index, groups, words


def parts_of(items, count):
    return (items[at : at + count] for at in range(0, len(items), count))


def numbered(items):
    """The number of each of these items, and the items that are numbered, each once."""
    numbers = {}
    found = [numbers.setdefault(item, len(numbers)) for item in items]
    if len(numbers) > NUMBERED:
        sys.exit("%d words or groups, which a byte does not number: give the table entries of two" % len(numbers))
    return found, list(numbers)


def word_of(columns):
    """Two bits for each of these columns, the lowest for the first."""
    return sum(each << 2 * place for place, each in enumerate(columns))


def wrapped(texts, margin):
    """These texts with commas, as many in a line as have room in 118 columns."""
    lines = [""]
    for text in texts:
        if len(lines[-1]) + len(text) + 2 > 118 - margin:
            lines.append("")
        lines[-1] += (" " if lines[-1] else "") + text + ","
    return "".join("%s%s\n" % (" " * margin, line) for line in lines)


def lines_of(found):
    """The ranges of a definition, as many in a line as have room in 110 columns."""
    lines = [""]
    for first, last in found:
        text = "(0x%X, 0x%X) ∷" % (first, last)
        if len(lines[-1]) + len(text) + 1 > 110:
            lines.append("")
        lines[-1] += (" " if lines[-1] else "") + text
    return "".join("    %s\n" % line for line in lines)


def main():
    folder = sys.argv[1] if len(sys.argv) > 1 else "/usr/share/unicode"
    zero = {each for each, name in categories(folder).items() if name in NO_COLUMN}
    zero = zero - {SOFT_HYPHEN} | set(JAMO)
    two = wide(folder) - zero
    number = version(folder)
    with open(os.path.join(HERE, "specs", "Ranges.antt"), "w") as out:
        out.write("-- Ranges of characters by the columns that they take, of Unicode %s: UnicodeData.txt and\n" % number)
        out.write("-- EastAsianWidth.txt. Written by make_widths.py.\n")
        out.write("use Rattle.std.specs.Prelude.{ℕ, List, [], ◌∷◌}\n")
        for name, words, found in (
            ("no_column", "Mn, Me and Cf but for U+00AD; U+1160 to U+11FF", zero),
            ("two_columns", "W and F, but for those", two),
        ):
            out.write("\n-- %s\nabbrev pub %s : List (ℕ × ℕ)\n%s =\n" % (words, name, name))
            out.write(lines_of(ranges(found))[:-1] + " []\n")
    index, groups, words = table(zero, two)
    with open(os.path.join(HERE, "src", "width", "table.rt"), "w") as out:
        out.write("//! How many columns each character takes, of Unicode %s. Written by make_widths.py.\n" % number)
        out.write("\n/// Which group each 1,024 characters have.\n#[rattlefmt::skip]\n")
        out.write("pub(crate) static INDEX: [u8; %d] = [\n%s];\n" % (len(index), wrapped(map(str, index), 4)))
        out.write("\n/// Which word each 32 characters of a group have.\n#[rattlefmt::skip]\n")
        out.write("pub(crate) static GROUPS: [[u8; %d]; %d] = [\n" % (IN_GROUP, len(groups)))
        out.write("".join("    [\n%s    ],\n" % wrapped(map(str, group), 8) for group in groups) + "];\n")
        out.write("\n/// The columns of 32 characters in each word, by two bits each, the lowest bits for the first.\n#[rattlefmt::skip]\n")
        out.write("pub(crate) static WORDS: [u64; %d] = [\n%s];\n" % (len(words), wrapped(("0x%X" % each for each in words), 4)))


if __name__ == "__main__":
    main()
