"""What says the styles of tests/screen/streams.py's mixed streams in CSS: red, blue, bold and underlined."""

import os
import sys

sys.path.insert(0, os.path.join(os.path.dirname(os.path.dirname(os.path.realpath(__file__))), "screen"))

import styles

# xterm's red and blue, and white on that blue; on the page a red that is read
COLORS = {
    (None, None): "",
    ((1,), None): "color:#cf222e;color:light-dark(#cf222e,#ff7b72);",
    (None, (4,)): "color:#ffffff;background-color:#0000ee;",
    ((1,), (4,)): "color:#cd0000;background-color:#0000ee;",
}


def declared(style):
    """The declarations of a style, for light and dark pages; a question mark for one of other streams."""
    others = style._replace(foreground=None, background=None, bold=False, underline=0)
    bold = "font-weight:bold;" if style.bold else ""
    underline = "text-decoration-line: underline;" if style.underline == 1 else ""
    return COLORS[style.foreground, style.background] + bold + underline if others == styles.PLAIN else "?"
