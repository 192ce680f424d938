"""Pages of terminal output, and the rules of HTML by classes: as ansi2html writes them, in the files .html and .css beside this one."""

import os
import re
from functools import lru_cache

from .html import number_of, to_html
from .library import FOLDER, exact

# colours for light and dark pages, of which a page that is one of both has one
BOTH = re.compile(r"([a-z-]+: ?)#\w{6}; ?\1light-dark\((#\w{6}), ?(#\w{6})\);")
ONE = {"light": r"\1\2;", "dark": r"\1\3;"}
TITLE, LANGUAGE = "TITLE-OF-THE-PAGE", "x-LANGUAGE"  # what stands for them in a page
# how a page looks that is light and dark as its reader has it, and in its place one that is light or dark
LOOK = "color-scheme: light dark;"
LOOKS = {
    "light": "color-scheme: light; color: #000000; background-color: #ffffff;",
    "dark": "color-scheme: dark; color: #ffffff; background-color: #121212;",
}
# how long lines are drawn, and, where they are not wrapped, in its place
WRAPS = "pre { white-space: pre-wrap; overflow-wrap: anywhere; }", "display: block; content-visibility"
SCROLLS = "pre { white-space: pre; }", "display: block; width: max-content; min-width: 100%; content-visibility"
SCHEMES = "both", "light", "dark"
TAG = re.compile("[A-Za-z0-9-]{1,64}")
ESCAPED = str.maketrans({"&": "&amp;", "<": "&lt;", ">": "&gt;", '"': "&quot;", "'": "&#39;", "\r": "&#13;"})
ESCAPED.update(dict.fromkeys(range(0xD800, 0xE000), "\ufffd"))  # (UTF-8 has no surrogates, as a file's name may)


@lru_cache(maxsize=None)
def _file(name):
    with open(os.path.join(FOLDER, name), encoding="utf-8", newline="") as file:
        return file.read()


def _rules(styling, lines, scroll):
    """The rules of a page, between its `<style>` and `</style>`, as the file beside this one has them."""
    rules = _file("page.html").split("<style>\n")[1].split("</style>\n")[0].replace(LOOK, LOOKS.get(styling, LOOK))
    if scroll:
        for wraps, scrolls in zip(WRAPS, SCROLLS):
            rules = rules.replace(wraps, scrolls)
    classes, of_lines = stylesheet(styling if styling in SCHEMES else "both").split(".ansi-wrap {")[0].split("pre [", 1)
    more = classes * (styling == "classes") + ("pre [" + of_lines) * lines
    return rules.replace("pre {", more + "pre {", 1)


def _looks(styling, lines, scroll, css):
    """How a page looks: by rules of its own, or by the stylesheet at an address."""
    if css is None:
        return "<style>\n%s</style>\n" % _rules(styling, lines, scroll)
    scheme = LOOKS.get(styling, LOOK).split(";")[0].split(": ")[1]
    return '<meta name="color-scheme" content="%s">\n<link rel="stylesheet" href="%s">\n' % (scheme, css.translate(ESCAPED))


def _frame(lang, title, looks, wraps_by_class):
    """What a page has before its text, and after it."""
    before, rest = _file("page.html").split(LANGUAGE)
    named, rest = rest.split(TITLE)
    closed, rest = rest.split("<style>\n")
    head, tail = rest.split("</style>\n")[1].split("<pre>\n")
    pre = '<pre class="ansi-wrap">\n' if wraps_by_class else "<pre>\n"
    return "".join([before, lang, named, title.translate(ESCAPED), closed, looks, head, pre]), tail


def _named(value, what):
    """The characters of a str, or a TypeError in words."""
    if not isinstance(value, str):
        raise TypeError("%s is a str, and not %s" % (what, type(value).__name__))
    return exact(value)


def page(
    text, styling="both", *, title="Terminal output", lang="en", css=None, scroll=False, shown=False, lines=False, urls=False, no_hidden=False
):  # fmt: skip
    """A whole page of terminal output, in UTF-8: what `to_html` gives, in the page that ansi2html writes around it.

        with open("log", "rb") as log, open("log.html", "wb") as page:
            page.write(ansi_proved.page(log.read(), title="A log"))

    (ansi2html also puts each 500 lines into an element of their own, by which a browser opens a long log at once.)

    styling: as of `to_html`: "both" is light or dark as its reader has it; by "classes" the rules are in the page's head. lang: the
    tag of its language: letters, digits and hyphens, 64 at most. css: the address of a stylesheet, in place of rules of its own, as
    `stylesheet` has them. scroll: long lines are not wrapped: the page scrolls. shown, lines, urls, no_hidden: as of `to_html`. Of a
    str it is a str, of bytes, a bytearray or a memoryview bytes.
    """
    number_of(styling)
    title, lang = _named(title, "a title"), _named(lang, "a language")
    if not TAG.fullmatch(lang):
        raise ValueError("a language is a tag of letters, digits and hyphens, 64 at most, and not %r" % lang)
    if css is not None:
        css = _named(css, "the address of a stylesheet")
    looks = _looks(exact(styling), bool(lines), scroll, css)
    head, tail = _frame(lang, title, looks, css is not None and not scroll)
    html = to_html(text, styling, shown=shown, lines=lines, urls=urls, no_hidden=no_hidden)
    if isinstance(html, str):
        return head + html + tail
    return head.encode() + html + tail.encode()


def stylesheet(scheme="both"):
    """The rules of HTML by classes and of lines, as `ansi2html --stylesheet` writes them: for pages that are light or dark as their
    reader has it ("both"), or for "light" or "dark" ones."""
    if _named(scheme, "a scheme") not in SCHEMES:
        raise ValueError("a scheme is one of %s, and not %r" % (", ".join(SCHEMES), scheme))
    rules = _file("classes.css")
    return rules if scheme == "both" else BOTH.sub(ONE[exact(scheme)], rules)
