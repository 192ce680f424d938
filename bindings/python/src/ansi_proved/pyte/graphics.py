"""The names of colours, by the numbers that select them (SGR).

A screen takes its names from here where it first meets a colour: who wants others (as `FG_BG_256[0] = "black"`) puts them here before.
"""

from ..screen import color_rgb

_NAMES = ["black", "red", "green", "brown", "blue", "magenta", "cyan", "white"]
FG = FG_ANSI = {**{30 + number: name for number, name in enumerate(_NAMES)}, 39: "default"}
BG = BG_ANSI = {**{40 + number: name for number, name in enumerate(_NAMES)}, 49: "default"}
FG_AIXTERM = {90 + number: "bright" + name for number, name in enumerate(_NAMES)}
BG_AIXTERM = {100 + number: "bright" + name for number, name in enumerate(_NAMES)}
FG_256, BG_256 = 38, 48  # what begins one of 256 colours, or of all
FG_BG_256 = ["%02x%02x%02x" % color_rgb(number) for number in range(256)]
