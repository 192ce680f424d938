"""Select Graphic Rendition, executable: crates/ansi_style/specs in Python, for tests/screen/twin.py.

    selected(groups, style)     the style behind a control sequence with the final byte m
    codes(style)                what is written behind ESC [ for the sequence that leads to the style
"""

from collections import namedtuple

Style = namedtuple("Style", "foreground background underline bold dim italic blink reverse hidden struck_out overlined")
PLAIN = Style(None, None, 0, *[False] * 8)

CODES = {1: {"bold": True}, 2: {"dim": True}, 3: {"italic": True}, 4: {"underline": 1}, 5: {"blink": True}}
CODES |= {6: {"blink": True}, 7: {"reverse": True}, 8: {"hidden": True}, 9: {"struck_out": True}, 21: {"underline": 2}}
CODES |= {22: {"bold": False, "dim": False}, 23: {"italic": False}, 24: {"underline": 0}, 25: {"blink": False}}
CODES |= {27: {"reverse": False}, 28: {"hidden": False}, 29: {"struck_out": False}, 39: {"foreground": None}}
CODES |= {49: {"background": None}, 53: {"overlined": True}, 55: {"overlined": False}}
for hue in range(8):
    CODES |= {30 + hue: {"foreground": (hue,)}, 40 + hue: {"background": (hue,)}}
    CODES |= {90 + hue: {"foreground": (60 + hue,)}, 100 + hue: {"background": (60 + hue,)}}
GROUNDS = {38: "foreground", 48: "background"}


def colored(style, code, color):
    """A colour behind its code: 5 and a number, or 2 and three."""
    right = color and max(color[1:]) < 256 and code in GROUNDS
    return style._replace(**{GROUNDS[code]: tuple(color)}) if right else style


def color_in(fields):
    if len(fields) == 2 and fields[0] == 5:
        return fields
    if len(fields) >= 4 and fields[0] == 2:
        return [2, *(fields[1:4] if len(fields) == 4 else fields[2:5])]
    return None


def selected(groups, style):
    groups = list(groups)
    while groups:
        group = groups.pop(0)
        if len(group) == 2 and group[0] == 4:
            style = style._replace(underline=group[1]) if group[1] < 6 else style
        elif len(group) > 1:
            style = colored(style, group[0], color_in(group[1:])) if len(group) > 2 else style
        elif group[0] in (38, 48, 58):
            color = []
            while groups and len(color) < {5: 2, 2: 4}.get(color[0] if color else 5, 1):
                taken = groups.pop(0)
                color = color + taken if len(taken) == 1 else [0] * 9
            style = colored(style, group[0], color if len(color) == {5: 2, 2: 4}.get(color[0] if color else 0) else None)
        elif group[0] == 0:
            style = PLAIN
        else:
            style = style._replace(**CODES.get(group[0], {}))
    return style


def color_codes(base, color):
    if color is None:
        return []
    return [base + color[0]] if len(color) == 1 else [base + 8, *color]


def codes(style):
    """0, and what is not plain, as numbers with ; between them."""
    found = [0] + [code for code, wanted in zip((1, 2, 3), style[3:6]) if wanted]
    found += [[], [4], [21], ["4:3"], ["4:4"], ["4:5"]][style.underline]
    found += [code for code, wanted in zip((5, 7, 8, 9, 53), style[6:]) if wanted]
    return ";".join(map(str, found + color_codes(30, style.foreground) + color_codes(40, style.background)))
