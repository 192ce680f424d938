#!/usr/bin/env python3
"""Writes the shapes of line drawing and of blocks, by the names that Unicode gives them, as Python's unicodedata has them.

Usage: make_shapes.py

A cell is 10 units wide and 20 high. A light line is 1 unit thick, a heavy one 3, of a double one each line 1 and the gap between
them too; all have the same middle, at 5.5 and 10.5, so that they join, and edges lie on whole units, so that they are sharp.
A shape is a row of SVG's path commands that begins at the top left of its cell and ends at that of the next one. Shades
(U+2591 to U+2593) have none. It writes specs/Shapes.antt and src/shapes.rt beside itself.
"""

import os
import re
import sys
import unicodedata

HERE = os.path.dirname(os.path.realpath(__file__))
WIDTH, HEIGHT = 10, 20
FIRST, LAST = 0x2500, 0x259F
# where lines begin and end, across: light, heavy
ACROSS = {1: (5, 6), 2: (4, 7)}
DOWN = {1: (10, 11), 2: (9, 12)}
# curves and slopes, by hand: arcs of the light lines' edges, and bands of a light line's thickness
DRAWN = {
    "ARC DOWN AND RIGHT": "m5 20v-5a5 5 0 0 1 5-5v1a4 4 0 0 0-4 4v5zm5-20",
    "ARC DOWN AND LEFT": "m6 20v-5a6 5 0 0 0-6-5v1a5 4 0 0 1 5 4v5zm4-20",
    "ARC UP AND LEFT": "m6 0v6a6 5 0 0 1-6 5v-1a5 4 0 0 0 5-4v-6zm4 0",
    "ARC UP AND RIGHT": "m5 0v6a5 5 0 0 0 5 5v-1a4 4 0 0 1-4-4v-6zm5 0",
    "DIAGONAL UPPER RIGHT TO LOWER LEFT": "m0 20v-1l9.5-19h.5v1l-9.5 19zm10-20",
    "DIAGONAL UPPER LEFT TO LOWER RIGHT": "m0 0h.5l9.5 19v1h-.5l-9.5-19zm10 0",
    "DIAGONAL CROSS": "m0 20v-1l9.5-19h.5v1l-9.5 19zm0-20h.5l9.5 19v1h-.5l-9.5-19zm10 0",
}
SIDES = ["LEFT", "UP", "RIGHT", "DOWN"]
PAIRS = {"HORIZONTAL": ["LEFT", "RIGHT"], "VERTICAL": ["UP", "DOWN"]}
WEIGHTS = {"LIGHT": 1, "SINGLE": 1, "HEAVY": 2, "DOUBLE": 3}


def arms_of(name):
    """The weight of each side's line, as in `DOWN LIGHT AND RIGHT UP HEAVY` or `LIGHT VERTICAL AND RIGHT`."""
    arms = dict.fromkeys(SIDES, 0)
    for part in name.split(" AND "):
        words = part.split()
        weights = [WEIGHTS[it] for it in words if it in WEIGHTS]
        for word in words:
            for side in PAIRS.get(word, [word] if word in SIDES else []):
                arms[side] = weights[0] if weights else None
    known = [it for it in arms.values() if it]
    return [known[0] if arms[it] is None else arms[it] for it in SIDES]


def single(left, up, right, down):
    """Light and heavy lines as rectangles, each from its side to past the lines across it."""
    across, along = ACROSS[max(up, down) or 1], DOWN[max(left, right) or 1]
    found = []
    if left and left == right:
        found.append((0, DOWN[left][0], WIDTH, DOWN[left][1]))
    else:
        found += [(0, DOWN[left][0], across[1], DOWN[left][1])] if left else []
        found += [(across[0], DOWN[right][0], WIDTH, DOWN[right][1])] if right else []
    if up and up == down:
        found.append((ACROSS[up][0], 0, ACROSS[up][1], HEIGHT))
    else:
        found += [(ACROSS[up][0], 0, ACROSS[up][1], along[1])] if up else []
        found += [(ACROSS[down][0], along[0], ACROSS[down][1], HEIGHT)] if down else []
    return found


def double(left, up, right, down):
    """Lines of which some are double: where one meets another, it ends at it, and goes round what is open."""
    found = []
    if 3 in (left, right):
        upright = 3 in (up, down)
        for top, meets in (9, up), (11, down):
            if left and right and not (upright and meets):
                found.append((0, top, WIDTH, top + 1))
                continue
            if left:
                found.append((0, top, 5 if upright and meets else 7 if upright else 6, top + 1))
            if right:
                found.append((6 if upright and meets else 4 if upright else 5, top, WIDTH, top + 1))
    elif left or right:
        both = up and down
        found.append((0 if left else 7 if both else 4, 10, WIDTH if right else 4 if both else 7, 11))
    if 3 in (up, down):
        level = 3 in (left, right)
        for start, meets in (4, left), (6, right):
            if up and down and not (level and meets):
                found.append((start, 0, start + 1, HEIGHT))
                continue
            if up:
                found.append((start, 0, start + 1, 10 if level and meets else 12 if level else 11))
            if down:
                found.append((start, 11 if level and meets else 9 if level else 10, start + 1, HEIGHT))
    elif up or down:
        both = left and right
        found.append((5, 0 if up else 12 if both else 9, 6, HEIGHT if down else 9 if both else 12))
    return found


def dashed(name):
    """Lines of two, three or four dashes in a cell."""
    count = {"DOUBLE": 2, "TRIPLE": 3, "QUADRUPLE": 4}[name.split()[1]]
    weight = WEIGHTS[name.split()[0]]
    if "VERTICAL" in name:
        (start, end), step = ACROSS[weight], {2: 10, 3: 7, 4: 5}[count]
        return [(start, at * step + 1, end, at * step + {2: 9, 3: 6, 4: 4}[count]) for at in range(count)]
    (start, end), step = DOWN[weight], {2: 5, 3: 3, 4: 2.5}[count]
    first = {2: 0.5, 3: 1, 4: 0.5}[count]
    return [(at * step + first, start, at * step + first + {2: 4, 3: 2, 4: 1.5}[count], end) for at in range(count)]


EIGHTHS = ["ONE EIGHTH", "ONE QUARTER", "THREE EIGHTHS", "HALF", "FIVE EIGHTHS", "THREE QUARTERS", "SEVEN EIGHTHS"]


def block(name):
    """Blocks: eighths of a cell, to whole units, and quadrants."""
    if "SHADE" in name:
        return []
    if name == "FULL BLOCK":
        return [(0, 0, WIDTH, HEIGHT)]
    if name.startswith("QUADRANT"):
        sides = [it for it in re.split(" AND |QUADRANT | ", name) if it]
        pairs = list(zip(sides[::2], sides[1::2]))
        return [(5 * (x == "RIGHT"), 10 * (y == "LOWER"), 5 + 5 * (x == "RIGHT"), 10 + 10 * (y == "LOWER")) for y, x in pairs]
    side, _, size = name.replace(" BLOCK", "").partition(" ")
    part = (EIGHTHS.index(size) + 1) / 8
    across, down = int(WIDTH * part + 0.5), int(HEIGHT * part + 0.5)
    return [
        {
            "UPPER": (0, 0, WIDTH, down),
            "LOWER": (0, HEIGHT - down, WIDTH, HEIGHT),
            "LEFT": (0, 0, across, HEIGHT),
            "RIGHT": (WIDTH - across, 0, WIDTH, HEIGHT),
        }[side]
    ]


def text_of(number):
    """A number of a path, as short as can be."""
    return ("%g" % number).replace("0.", ".") if number != 0 else "0"


def moved(x, y):
    return "m%s%s%s" % (text_of(x), "" if y < 0 else " ", text_of(y))


def path_of(rectangles):
    """Rectangles as a path from the top left of a cell to that of the next one."""
    if not rectangles:
        return ""
    here, path = (0, 0), ""
    for left, top, right, bottom in rectangles:
        path += moved(left - here[0], top - here[1])
        path += "h%sv%sh%sz" % (text_of(right - left), text_of(bottom - top), text_of(left - right))
        here = left, top
    return path + moved(WIDTH - here[0], -here[1])


def shape_of(number):
    name = unicodedata.name(chr(number))
    if not name.startswith("BOX DRAWINGS "):
        return path_of(block(name))
    name = name[len("BOX DRAWINGS ") :]
    if name.removeprefix("LIGHT ") in DRAWN:
        return DRAWN[name.removeprefix("LIGHT ")]
    if "DASH" in name:
        return path_of(dashed(name))
    arms = arms_of(name)
    return path_of(double(*arms) if 3 in arms else single(*arms))


SPECS = """-- Shapes of line drawing and of blocks, as commands of a path from the top left of a cell to that of the next one. A cell is 10
-- units wide and 20 high; a light line is 1 unit thick, a heavy one 3. Written by make_shapes.py.
--
-- Sources: The Unicode Standard, code charts U+2500 (Box Drawing) and U+2580 (Block Elements); SVG 2, 9.3 (path data).
use Rattle.std.specs.Prelude.{ℕ, Bool, ◌==◌, not, List, [], ◌∷◌, codes, if◌then◌else◌}
use Rattle.anstyle_parse.specs.Stream.Bytes.{is_within}
use Rattle.ansi_html.specs.Links.{is_none}

-- what a table has for a number
abbrev pub found : ℕ → List (ℕ × List ℕ) → List ℕ
found n [] = []
found n (it ∷ others) = if n == it.0 then it.1 else found n others
"""

SOURCE = """//! Shapes of line drawing and of blocks: commands of a path. Written by make_shapes.py.
ghost use Rattle.std.specs.Prelude.{◌≡◌};
ghost use Rattle.screen_svg.specs.Shapes.{found, %s, shape_of};
"""


def main():
    if sys.argv[1:]:
        print(__doc__.strip())
        return 0
    rows = {"in_%X" % (row >> 4): [(it, shape_of(it)) for it in range(row, row + 16)] for row in range(FIRST, LAST + 1, 16)}
    with open(os.path.join(HERE, "specs", "Shapes.antt"), "w") as out:
        out.write(SPECS)
        for name, row in rows.items():
            out.write("\n-- U+%X to U+%X\nabbrev pub %s : List (ℕ × List ℕ)\n%s =\n" % (row[0][0], row[-1][0], name, name))
            out.write("".join('    (0x%X, codes "%s") ∷\n' % it if it[1] else "    (0x%X, []) ∷\n" % it[0] for it in row) + "    []\n")
        out.write("\n-- the shape of a character; of most there is none\nunfoldable pub shape_of : ℕ → List ℕ\nshape_of c =\n")
        out.write("    " + "\n    else ".join("if is_within 0x%X 0x%X c then found c %s" % (row[0][0], row[-1][0], name) for name, row in rows.items()))
        out.write("\n    else []\n\nabbrev pub has_shape : ℕ → Bool\nhas_shape c = not (is_none (shape_of c))\n")
    with open(os.path.join(HERE, "src", "shapes.rt"), "w") as out:
        out.write(SOURCE % ", ".join(rows))
        for name, row in rows.items():
            out.write("\n/// Those of U+%X to U+%X.\n#[rattlefmt::skip]\nfn %s(number: u32) -> &'static [u8]\n" % (row[0][0], row[-1][0], name))
            out.write("    ensures { result.now ≡ found number %s }\n{\n    match number {\n" % name)
            out.write("".join('        0x%X => b"%s",\n' % it for it in row if it[1]) + '        _ => b"",\n    }\n}\n')
        out.write("\n/// The shape of a character; of most there is none.\n")
        out.write("#[tactic(auto, unfolding(crate::specs::Shapes::shape_of, anstyle_parse::specs::Stream::Bytes::is_within))]\n")
        out.write("pub(crate) fn shape_of(c: char) -> &'static [u8]\n    ensures { result.now ≡ shape_of c }\n{\n")
        out.write("    let number = u32::from(c);\n    match number {\n")
        out.write("".join("        0x%X..=0x%X => %s(number),\n" % (row[0][0], row[-1][0], name) for name, row in rows.items()))
        out.write('        _ => b"",\n    }\n}\n')
    return 0


if __name__ == "__main__":
    sys.exit(main())
