r"""Terminal output as clean text, HTML, events or a screen, by a proved library.

    strip(text)       the text, with no escapes: strip("\x1b[31mred\x1b[0m <b>") is "red <b>"
    strip(text, lf=True)    without a carriage return before a line feed: strip("one\r\n", lf=True) is "one\n"
    safe(text)        text that hides nothing: safe("\x1b[31ma\u202eb") is "a<U+202E>b"
    shown(text)       the text that a screen shows, as of progress bars: shown("50%\r100%\n") is "100%\n"
    to_html(text)     its HTML, to paste after <pre> and a newline: to_html("\x1b[1mhi") is '<span style="font-weight:bold;">hi</span>'
    page(text)        a whole page of it; stylesheet() the rules of HTML by classes
    text_of(stream), html_of(stream)    the same of a stream in pieces, such as a file, piece by piece; shown_of(stream) at its end
    events(stream)    its events, named tuples: Text, Execute, Csi, Esc, Osc, Hook, Put, Unhook (any: Event); Events().feed(piece), end()
    Screen(80, 24)    a terminal's screen, to feed and to look at, cell by cell; import ansi_proved.pyte as pyte has pyte's calls for it
    color_rgb(196)    the red, green and blue of one of xterm's 256 colours: (255, 0, 0)

A text is a str, and leads to a str; or bytes, a bytearray or a memoryview, and leads to bytes. What is none of these is a
TypeError in words. A surrogate in a str, as errors="surrogateescape" leaves it, is U+FFFD everywhere, as a broken character is.
HTML has a styling: "both" (light and dark pages), "light", "dark" or "classes".

help(ansi_proved.strip), and so on of each name, says more. Threads may call all of it, and share a Screen and what text_of,
html_of and events give. `python -m ansi_proved` runs the programs ansi2text, ansi2html, ansi2screen, ansi2svg and parselog.
"""

# Of the shared libraries libansi.so stands beside this file, or is what the variable ANSI_LIBRARY names; where there is none, the import
# is an ImportError that says so. libansi_screen.so, or what ANSI_SCREEN_LIBRARY names, is loaded where a name of the screen is first used.
from importlib import import_module as _import_module

from .event import Csi, Esc, Event, Events, Execute, Hook, Osc, Put, Text, Unhook, events
from .html import STYLINGS, html_of, to_html
from .page import page, stylesheet
from .safe import safe
from .text import strip, text_of

__version__ = "0.1.0"
__all__ = ["STYLINGS", "html_of", "page", "safe", "strip", "stylesheet", "text_of", "to_html"]
__all__ += ["events", "Csi", "Esc", "Event", "Events", "Execute", "Hook", "Osc", "Put", "Text", "Unhook"]
_OF_SCREEN = ["Cell", "Change", "Color", "Cursor", "History", "Margins", "Modes", "Place", "Screen", "Style", "color_rgb"]
_LATER = {**dict.fromkeys(_OF_SCREEN, ".screen"), "shown": ".log", "shown_of": ".log"}
__all__ += _LATER


def __getattr__(name):
    """What is of the screen, which has a library of its own: it is loaded where it is first named."""
    if name not in _LATER:
        raise AttributeError("module %r has no attribute %r" % (__name__, name))
    globals()[name] = found = getattr(_import_module(_LATER[name], __name__), name)
    return found


def __dir__():
    return sorted({*globals(), *_LATER})
