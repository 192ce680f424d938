"""Drawing a screen, executable: crates/screen_draw/specs/Draw.antt and Redrawn.antt over tests/screen/twin.py.

    drawn(display)          the bytes that ansi2screen --draw must write
    drawn_state(display)    the screen that these bytes must lead to: all of it but what REP repeats, whether a row
                            goes on, and in few places whether a space was printed or nothing stands there
    state(display)          a screen, to be compared with it
"""

import styles
from twin import EMPTY, RIGHT, WHOLE, Place


def is_erased(cell):
    _, part, marks, _, style = cell
    return part == EMPTY and not marks and style == styles.PLAIN._replace(background=style.background)


def is_fresh(cell):
    return is_erased(cell) and cell[4] == styles.PLAIN


def position(row, column):
    return "\x1b[%d;%dH" % (row + 1, column + 1)


def select(style):
    return "\x1b[%sm" % styles.codes(style)


def charsets(draws, shift):
    return "\x1b(%s\x1b)%s%s" % (*("B0"[draw] for draw in draws), "\x0f\x0e"[shift])


def cells_drawn(cells, width):
    text, pen, there = "", styles.PLAIN, None
    for place, (cell, style) in enumerate((cell, cell[4]) for cell in cells):
        if place % width == 0 or is_fresh(cell):
            there = False
        if is_fresh(cell) or cell[1] == RIGHT:
            continue
        text += "" if there else position(*divmod(place, width))
        text += "" if style == pen else select(style)
        text += "\x1b[1X" if is_erased(cell) else cell[0] + cell[2]
        pen, there = style, not is_erased(cell)
    return text


PLAINLY = "\x1b[?6l" + charsets((False, False), 0) + select(styles.PLAIN)


def going(place, top, column, pending):
    """To a place, where `pending` leads from a column to a pending wrap."""
    text = "\x1b[?6%s" % "lh"[place.is_relative] + position(place.row - (top if place.is_relative else 0), column)
    return text + pending + charsets(place.draws, place.shift) + select(place.style)


def saved_at(place, width):
    is_pending = place.column == width
    return PLAINLY + going(place, 0, place.column - is_pending, select(styles.PLAIN) + " " if is_pending else "") + "\x1b7"


def screen_drawn(saved, cells, width):
    return saved_at(saved, width) + PLAINLY + "\x1b[2J" + cells_drawn(cells, width)


def cursor_drawn(display):
    place, end = display.cursor, display.row_end() - 1
    if place.column < display.width:
        return going(place, display.top, place.column, "")
    wide = display.cells[end][1] == RIGHT
    c, _, marks, _, style = display.cells[end - wide]
    return going(place, display.top, display.width - 1 - wide, select(style) + c + marks)


def stops_drawn(tabs):
    differing = [column for column, stops in enumerate(tabs) if stops != (column % 8 == 0)]
    return "".join("\x1b[%dG%s" % (column + 1, "\x1bH" if tabs[column] else "\x1b[0g") for column in differing)


def drawn(display):
    width, mode = display.width, lambda on, name: "\x1b[%s%s" % (name, "lh"[on])
    text = "\x1bc"
    if display.is_alternate:
        text += screen_drawn(display.hidden_saved, display.hidden, width) + "\x1b8\x1b[?1049h"
    text += screen_drawn(display.saved, display.cells, width) + PLAINLY + stops_drawn(display.tabs)
    text += "\x1b[%d;%dr" % (display.top + 1, display.bottom) + cursor_drawn(display)
    text += mode(display.wraps, "?7") + mode(display.inserts, "4") + mode(display.is_visible, "?25")
    return text.encode()


def as_printed(cell):
    c, part, marks, _, style = cell
    return c, WHOLE if part == EMPTY else part, marks, False, style


def as_drawn(cell):
    return (*cell[:3], False, cell[4]) if is_erased(cell) else as_printed(cell)


def drawn_state(display):
    cells, last = [as_drawn(cell) for cell in display.cells], display.row_end() - 1
    if display.cursor.column == display.width:
        cells[last] = as_printed(display.cells[last])
    return (cells, [as_drawn(cell) for cell in display.hidden], *state(display)[2:])


def state(display):
    places = display.cursor, display.saved, display.hidden_saved
    return (list(display.cells), list(display.hidden), *map(place_of, places), display.top, display.bottom, display.tabs,
            display.wraps, display.inserts, display.is_visible, display.is_alternate)


def place_of(place):
    """A place, to be compared."""
    return tuple(getattr(place, name) for name in sorted(vars(Place())))
