#!/usr/bin/env python3
"""Writes the ranges of characters by which text is made safe, from Unicode's own files, as
Debian's package unicode-data brings them (15.0.0).

Usage: make_ranges.py [FOLDER]          (/usr/share/unicode)

Hidden: the general categories Cc, Zl and Zp of UnicodeData.txt, Default_Ignorable_Code_Point of
DerivedCoreProperties.txt, Bidi_Control of PropList.txt, and the interlinear annotation, U+FFF9 to
U+FFFB; and the two numbers past the last character that stand for marks (specs/Safe.antt). Those by which a joiner may stand: Extended_Pictographic of emoji-data.txt; the canonical
combining class 9 (Virama) of UnicodeData.txt; Joining_Type D and L, and D and R, of
ArabicShaping.txt; and the line breaking class SA of LineBreak.txt. It writes specs/Ranges.antt and
src/classes/ranges.rt beside itself; with the same files it writes the same.
"""

import os
import sys

HERE = os.path.dirname(os.path.realpath(__file__))
CONTROLS = ("Cc", "Zl", "Zp")
ANNOTATION = range(0xFFF9, 0xFFFC)
MARKS = range(0x110000, 0x110002)
VIRAMA = "9"


def characters(folder):
    """The general category of each character that has one, and its canonical combining class."""
    first = 0
    with open(os.path.join(folder, "UnicodeData.txt")) as lines:
        for line in lines:
            fields = line.split(";")
            number = int(fields[0], 16)
            if not fields[1].endswith("Last>"):
                first = number
            for each in range(first, number + 1):
                yield each, fields[2], fields[3]


def fields_of(folder, name):
    """The numbers of each line of a file, and its further fields."""
    with open(os.path.join(folder, name)) as lines:
        for line in lines:
            numbers, *fields = [field.strip() for field in line.split("#")[0].split(";")]
            if fields:
                first, _, last = numbers.partition("..")
                yield range(int(first, 16), int(last or first, 16) + 1), fields


def having(folder, name, place, values):
    """The characters that have one of these values in a field of a file."""
    return {
        each
        for numbers, fields in fields_of(folder, name)
        if fields[place] in values
        for each in numbers
    }


def version(folder):
    with open(os.path.join(folder, "DerivedCoreProperties.txt")) as lines:
        return lines.readline().split("-")[1].split(".txt")[0]


def ranges(numbers):
    found = []
    for number in sorted(numbers):
        if found and found[-1][1] + 1 == number:
            found[-1][1] = number
        else:
            found.append([number, number])
    return found


def lines_of(found):
    """The ranges of a definition, as many in a line as have room in 110 columns."""
    lines = [""]
    for first, last in found:
        text = "(0x%X, 0x%X) ∷" % (first, last)
        if len(lines[-1]) + len(text) + 1 > 110:
            lines.append("")
        lines[-1] += (" " if lines[-1] else "") + text
    return "".join("    %s\n" % line for line in lines)


def tables(folder):
    data = list(characters(folder))
    hidden = {each for each, category, _ in data if category in CONTROLS} | set(ANNOTATION) | set(MARKS)
    hidden |= having(folder, "DerivedCoreProperties.txt", 0, ["Default_Ignorable_Code_Point"])
    hidden |= having(folder, "PropList.txt", 0, ["Bidi_Control"])
    # the fields of ArabicShaping.txt: name, joining type, joining group
    return (
        ("hidden", "Cc, Zl and Zp; Default_Ignorable_Code_Point; Bidi_Control; U+FFF9 to U+FFFB; two marks", hidden),
        ("pictographic", "Extended_Pictographic", having(folder, "emoji/emoji-data.txt", 0, ["Extended_Pictographic"])),
        ("virama", "Canonical_Combining_Class 9", {each for each, _, combining in data if combining == VIRAMA}),
        ("joins_next", "Joining_Type D and L", having(folder, "ArabicShaping.txt", 1, ["D", "L"])),
        ("joins_previous", "Joining_Type D and R", having(folder, "ArabicShaping.txt", 1, ["D", "R"])),
        ("unspaced", "Line_Break SA", having(folder, "LineBreak.txt", 0, ["SA"])),
    )


def main():
    folder = sys.argv[1] if len(sys.argv) > 1 else "/usr/share/unicode"
    number, found = version(folder), tables(folder)
    with open(os.path.join(HERE, "specs", "Ranges.antt"), "w") as out:
        out.write("-- Ranges of characters by properties of Unicode %s. Written by make_ranges.py, which names the\n" % number)
        out.write("-- files.\n")
        out.write("use Rattle.std.specs.Prelude.{ℕ, List, [], ◌∷◌}\n")
        for name, words, numbers in found:
            out.write("\n-- %s\nabbrev pub %s : List (ℕ × ℕ)\n%s =\n" % (words, name, name))
            out.write(lines_of(ranges(numbers))[:-1] + " []\n")
    with open(os.path.join(HERE, "src", "classes", "ranges.rt"), "w") as out:
        out.write("//! Ranges of characters by properties of Unicode %s. Written by make_ranges.py.\n" % number)
        for name, words, numbers in found:
            each = ranges(numbers)
            out.write("\n/// %s.\n" % words)
            out.write("pub(crate) static %s: [(u32, u32); %d] = [\n" % (name.upper(), len(each)))
            out.write("".join("    (0x%X, 0x%X),\n" % tuple(pair) for pair in each) + "];\n")


main()
