"""Reads a picture of ansi2svg by Python's XML parser (expat), which knows nothing of ours: its text by place, its grounds, and
what may not stand in it.

A cell is 10 units wide and 20 high (ansi2svg(1)). A text stands in the row and the column of its x and y.
"""

import re
import xml.etree.ElementTree

CELL = 10, 20
SVG = "{http://www.w3.org/2000/svg}"
NUMBER = r"-?\d+"
# what each element may have: attributes, of values of these forms; `?` is one that may be left out
STYLE = r"(?:[a-z-]+: ?[a-z0-9#(), -]+;)*"
OF_ELEMENTS = {
    "svg": {"viewBox": "%s %s %s %s" % ((NUMBER,) * 4), "width": NUMBER, "height": NUMBER, "font-family": ".*", "font-size": r"[\d.]+",
            "{http://www.w3.org/XML/1998/namespace}space": "preserve"},
    "title": {},
    "style": {},
    "rect": {"x": NUMBER, "y": NUMBER, "width": NUMBER, "height": NUMBER, "class?": "page|bar|cursor", "style?": STYLE},
    "circle": {"cx": NUMBER, "cy": NUMBER, "r": NUMBER},
    "text": {"x": NUMBER, "y": NUMBER, "textLength?": NUMBER, "class?": "name|shape", "style?": STYLE},
    "path": {"d": r"M\d+ \d+[mhvlaz0-9 .-]+", "style?": STYLE},
    "a": {"href": r"(?:https?://|mailto:)[\x21-\x7e]*"},
}  # fmt: skip
# which elements stand in which
INSIDE = {"svg": {"title", "style", "rect", "circle", "text", "path", "a"}, "a": {"text", "path"}}


class Run:
    """A text: the cell where it begins, how many columns it takes, what it says, and how."""

    def __init__(self, element, href):
        x, y, length = (int(element.get(it, 0)) for it in ("x", "y", "textLength"))
        self.row, self.column, self.columns = y // CELL[1], x // CELL[0], length // CELL[0]
        self.is_placed = (x % CELL[0], y % CELL[1], length % CELL[0]) == (0, 15, 0)
        self.text, self.style, self.href = element.text or "", element.get("style", ""), href
        self.is_shape = element.get("class") == "shape"


class Ground:
    """A rectangle, by cells."""

    def __init__(self, element):
        x, y, width, height = (int(element.get(it)) for it in ("x", "y", "width", "height"))
        self.place = x, y, width, height
        self.is_placed = (x % CELL[0], y % CELL[1], width % CELL[0], height) == (0, 0, 0, CELL[1])
        self.row, self.column, self.columns = y // CELL[1], x // CELL[0], width // CELL[0]
        self.style, self.kind = element.get("style", ""), element.get("class", "")


    def covers(self, run):
        left, top, width, height = self.place
        return left <= run.column * CELL[0] < left + width and top <= run.row * CELL[1] < top + height


class Picture:
    """What is read of one; `faults` says what may not stand there."""

    def __init__(self, data):
        self.faults, self.runs, self.grounds, self.others, self.rules = [], [], [], [], ""
        self.shapes = []
        self.title, self.name, self.view, self.fonts = None, None, (), None
        try:
            root = xml.etree.ElementTree.fromstring(data)
        except xml.etree.ElementTree.ParseError as error:
            self.faults.append("it is no XML: %s" % error)
            return
        self.view, self.fonts = tuple(map(int, root.get("viewBox", "").split())), root.get("font-family")
        if [root.get("width"), root.get("height")] != list(map(str, self.view[2:])):
            self.faults.append("its size is not that of its view")
        if data[:4] != b"<svg" or data.rstrip()[-6:] != b"</svg>":
            self.faults.append("it does not begin with <svg or end with </svg>")
        self.take(root, None, "")

    def take(self, element, parent, href):
        name = element.tag[len(SVG) :] if element.tag.startswith(SVG) else None
        allowed = OF_ELEMENTS.get(name)
        if allowed is None or name not in (INSIDE.get(parent, set()) if parent else {"svg"}):
            self.faults.append("an element %s in %s" % (element.tag, parent))
            return
        for it, value in element.attrib.items():
            form = allowed.get(it) or allowed.get(it + "?")
            if form is None or not re.fullmatch(form, value, re.S):
                self.faults.append("%s has %s=%r" % (name, it, value))
        self.faults += ["%s has no %s" % (name, it) for it in allowed if it[-1] != "?" and element.get(it) is None]
        if name not in ("text", "title", "style") and (element.text or "").strip() or (element.tail or "").strip():
            self.faults.append("text in or after %s: %r, %r" % (name, element.text, element.tail))
        if name == "text" and element.get("class") == "name":
            self.name = element.text or ""
        elif name == "text":
            self.runs.append(Run(element, href))
            # (shapes stand before the text that they stand for)
            shape = self.shapes.pop() if self.shapes else None
            if self.runs[-1].is_shape != (shape is not None):
                self.faults.append("shapes %s stand before %r" % (shape, self.runs[-1].text))
            elif shape and shape != ("M%s %d" % (element.get("x"), int(element.get("y")) - 15), self.runs[-1].style, href):
                self.faults.append("shapes %s stand for %r" % (shape, self.runs[-1].text))
        elif name == "path":
            place = re.match(r"M\d+ \d+", element.get("d", ""))
            self.shapes.append((place and place[0], element.get("style", ""), href))
        elif name == "rect":
            ground = Ground(element)
            (self.others if ground.kind else self.grounds).append(ground)
            # (what comes later is drawn over what came before)
            if ground.kind != "cursor" and any(ground.covers(it) for it in self.runs):
                self.faults.append("a rectangle at %s is drawn over a text" % (ground.place,))
        elif name == "style":
            self.rules += element.text or ""
        elif name == "title":
            self.title = element.text or ""
        for inner in element:
            self.take(inner, name, element.get("href", ""))

    def cells(self, is_mark):
        """By row and column the text that stands in a cell, how many columns it takes, its style and its link. A mark stands with the
        character before it. The characters of a run of several take a column each."""
        found = {}
        for run in self.runs:
            texts = []
            for c in run.text:
                texts[-1:] = [texts[-1] + c] if texts and is_mark(c) else [*texts[-1:], c]
            each = run.columns if len(texts) == 1 else 1
            if not run.is_placed or run.columns != each * len(texts) or each not in (1, 2):
                self.faults.append("%r in row %d, column %d takes %d columns" % (run.text, run.row, run.column, run.columns))
            for number, text in enumerate(texts):
                place = run.row, run.column + number * each
                if place in found:
                    self.faults.append("two texts in row %d, column %d" % place)
                found[place] = text, each, run.style, run.href
        return found

    def behind(self):
        """By row and column the style of each cell's ground."""
        found = {}
        for ground in self.grounds:
            if not ground.is_placed:
                self.faults.append("a ground at %s" % (ground.place,))
            for column in range(ground.column, ground.column + ground.columns):
                if (ground.row, column) in found:
                    self.faults.append("two grounds in row %d, column %d" % (ground.row, column))
                found[ground.row, column] = ground.style
        return found


def lines_of(cells):
    """The rows of cells as lines, as ansi2screen writes them: no spaces at the ends, no blank rows at the end. A cell where no
    text stands is a space."""
    lines = [""] * (max((row for row, _ in cells), default=-1) + 1)
    ends = [0] * len(lines)
    for (row, column), (text, columns, *_) in sorted(cells.items()):
        lines[row] += " " * (column - ends[row]) + text
        ends[row] = column + columns
    lines = [it.rstrip(" ") for it in lines]
    while lines and not lines[-1]:
        lines.pop()
    return "".join("%s\n" % it for it in lines)
