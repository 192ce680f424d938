"""Reads the HTML that a program writes with Python's own reader, which knows nothing of ours."""

import html.parser
import re

# What a program of colours writes, and what a stranger may put into a log. In the last ones a
# reference, a tag or a character is cut, or stands where it is no text.
STREAMS = {
    "a compiler's error": b"\x1b[01m\x1b[Ka.c:1:\x1b[m\x1b[K \x1b[01;31m\x1b[Kno: \x1b[m'x'\n",
    "a listing": b"\x1b[0m\x1b[01;34mbin\x1b[0m  \x1b[38;5;208mold\x1b[39m \x1b[30;42mt\x1b[0m\r\n",
    "a prompt": b"\x1b]0;me@here: ~\x07\x1b[1;32mme\x1b[0m:\x1b[38;2;1;2;3m~\x1b[0m$ \x1b[?2004l\r",
    "styles that are not ended": b"\x1b[1ma\x1b[4mb\x1b[7mc\x1b[31md\x1b[9me\n\n",
    "colons": b"\x1b[4:3ma\x1b[38:2::255:0:1mb\x1b[38:5:9mc\x1b[58:5:1md\x1b[0me",
    "markup": b"<b>bold</b> <script>alert(1)</script> <!-- no --> </pre></span></body>",
    "quotes": b"\"' onclick=\"x\" style='y' \x1b[31m\" onmouseover=\"z\x1b[0m'",
    "references": b"&lt;b&gt; &amp;amp; &#60;i&#62; &copy &nbsp; & && &#x3C;",
    "markup in colours": b"\x1b[31m<\x1b[32mscript\x1b[33m>\x1b[0m&\x1b[1mlt;",
    "a title with a script": b"\x1b]0;<script>alert(1)</script>\x07\x1b]2;</pre>\x1b\\text",
    "a link with a script": b"\x1b]8;;javascript:alert(1)\x1b\\press\x1b]8;;\x1b\\",
    "a link": b"\x1b]8;id=1;https://a.org/?a=1&b='2'\x07it\x1b[31mtoo\x1b]8;;\x07 \x1b]8;;mailto:a@b\x1b\\\x1b[mme",
    "a link with markup": b"\x1b]8;;\"><b>\x07it\x1b]8;;\x07 \x1b]8;<i>;' x='\x07too\x1b]8;;\x07",
    "a device control string": b"\x1bPq<script>\x1b\\\x1b_<b>\x1b\\\x1b^<i>\x1b\\\x1bX<u>\x1b\\end",
    "broken characters": b"\xc3<\xe2\x82<b>\xf0\x9f\x98\x1b[31m\xed\xa0\x80\xff\xe0\x80\xbcx",
    "characters": "ä € 😀 \u202e\u2028\ufeff\x00\x7f".encode(),
    "controls": b"a\x00b\x08c\x0bd\x0ce\x1af\tg\rh\n<\x18>\n",
    "progress": b"10%\r\x1b[32m20%\r\x1b[0m\x1b[K30%\x1b[1m\r\x1b[m\r\nend\r\r\n\r\x1b]0;x\x07\n\n\r<",
    "carriage returns": b"\r\r\n\ra\r\tb\r&\r\x1b[4m\r\n\r",
    "references to newlines": b"&#13;&#10;&NewLine;<br>\r<br>\n",
    "a sequence that is cut": b"<i>\x1b[38;2;1;2",
    "a string that is cut": b"&\x1b]0;<b>",
    "a newline first": b"\n\nafter",
    "nothing": b"",
}


def text_of(lines):
    """The text of the calls that parselog writes: each character that is printed, and tabs, line feeds and returns. HTML
    has DEL and U+0080 to U+009F, which text that ansi2text writes has not."""
    characters = [int(word, 16) for word in re.findall(rb"^(?:print U\+|execute (?=09|0A|0D))(\w+)$", lines, re.M)]
    return "".join(map(chr, characters)).encode()
# A page as a whole may have these elements besides spans and links; a fragment has none.
OF_A_PAGE = ["html", "head", "meta", "title", "style", "body", "pre"]
# What a page says of itself beside its language: its charset, that a phone draws it at the phone's width, that it is
# light or dark as its reader has it, and that long lines are wrapped.
METAS = [[("charset", "utf-8")], [("name", "viewport"), ("content", "width=device-width")]]
STYLE = {
    ":root": {"color-scheme": "light dark"},
    "pre": {"white-space": "pre-wrap", "overflow-wrap": "anywhere"},
    "pre > [data-lines]": {"display": "block", "content-visibility": "auto", "contain-intrinsic-height": "auto 500lh"},
}
BLOCK = [("data-lines", "500")]  # the attributes of a block of lines, which stands in the <pre> of a page
WITH_NO_END = ["meta"]
# What a link leads to: one of three schemes, and ASCII without controls and the space.
HREF = re.compile(r"(?:https?://|mailto:)[\x21-\x7e]*")


class Reader(html.parser.HTMLParser):
    """Keeps the text, inside <pre> where there is one, and what may not stand in such HTML."""

    def __init__(self, is_page):
        super().__init__()
        self.is_page, self.open, self.text, self.faults = is_page, [], "", []
        self.declared, self.language, self.metas, self.style, self.title = [], [], [], "", ""
        self.lines = ""  # the text as its lines are drawn: 0A at each line break, and no 0D
        self.links = []  # what each character of the text leads to
        self.styles = []  # the attributes style under which it stands, that of a link before that of its span
        self.around = []  # the link and the style of each span or link that is open

    def handle_starttag(self, tag, attributes):
        if tag == "br":
            self.lines += "\n"
            if attributes or self.text[-1:] != "\r":
                self.faults.append("a line break with %s behind %r" % (attributes, self.text[-1:]))
            return
        if self.is_page and tag == "span" and self.open[-1:] == ["pre"] and attributes == BLOCK:
            self.open.append("block")
            return
        if tag in ("span", "a"):
            if "span" in self.open or tag == "a" and "a" in self.open:
                self.faults.append("an element %s stands in %s" % (tag, self.open))
            if not is_of(tag, attributes):
                self.faults.append("an element %s has the attributes %s" % (tag, attributes))
            self.around.append((dict(attributes).get("href", ""), dict(attributes).get("style", "")))
        elif not self.is_page or tag not in OF_A_PAGE or "pre" in self.open:
            self.faults.append("an element %s" % tag)
        elif tag == "meta":
            self.metas.append(attributes)
        elif tag == "html":
            self.language = attributes
        elif attributes:
            self.faults.append("%s has the attributes %s" % (tag, attributes))
        if tag not in WITH_NO_END:
            self.open.append(tag)

    def handle_endtag(self, tag):
        if self.open[-1:] == ["block"] and tag == "span":
            self.open.pop()
        elif self.open[-1:] != [tag]:
            self.faults.append("%s is ended, with %s open" % (tag, self.open))
        else:
            self.open.pop()
            if tag in ("span", "a"):
                self.around.pop()

    def handle_data(self, data):
        if not self.is_page or "pre" in self.open:
            self.text += data
            self.links += ["".join(link for link, _ in self.around)] * len(data)
            self.styles += ["".join(style for _, style in self.around)] * len(data)
            self.lines += data.replace("\r", "")
        elif "style" in self.open:
            self.style += data
        elif "title" in self.open:
            self.title += data

    def handle_decl(self, declaration):
        self.declared.append(declaration)
        if not self.is_page or self.getpos() != (1, 0):
            self.faults.append("a declaration %r" % declaration)

    def handle_comment(self, data):
        self.faults.append("a comment %r" % data)


def is_of(tag, attributes):
    """Whether a span, or a link, has these attributes: a link's colour is that of the text around it, or its span's."""
    if tag == "span":
        return [name for name, _ in attributes] in (["style"], ["class"])
    names, values = zip(*attributes)
    is_link = names[:2] == ("rel", "href") and values[0] == "nofollow noreferrer"
    said = {"style": "color:inherit;", "class": "ansi-link"}.get(names[2], None) if len(names) == 3 else None
    return is_link and HREF.fullmatch(values[1]) is not None and said is not None and values[2] == said


def normalized(text):
    """Newlines as a browser reads them: the HTML standard, 13.2.3.5."""
    return text.replace("\r\n", "\n").replace("\r", "\n")


def differs(written, stripped, is_page, links=None):
    """Says how this HTML is not that of the stripped text, with these links, or answers None."""
    reader = Reader(is_page)
    try:
        reader.feed(normalized(written.decode()))
        reader.close()
    except UnicodeDecodeError as error:
        return "it is no UTF-8: %s" % error
    # (a reader drops a newline right after <pre>)
    begin = 1 if is_page and reader.text[:1] == "\n" else 0
    text = stripped.decode()
    # (a carriage return ends a line where something follows)
    lines = normalized(text)[:-1] if text[-1:] == "\r" else normalized(text)
    for what, found, wanted in (("text is", reader.text, text), ("lines are", reader.lines, lines)):
        if found[begin:] != wanted:
            return "its %s %r, and not %r" % (what, found[begin:], wanted)
    if links is not None and reader.links[begin:] != links:
        return "its links are %r, and not %r" % (reader.links[begin:], links)
    if reader.open:
        return "it leaves %s open" % ", ".join(reader.open)
    if reader.faults:
        return reader.faults[0]
    return page_differs(reader, written) if is_page else None


def title_differs(written, title):
    """Says how a page has another title than this, or answers None."""
    reader = Reader(True)
    reader.feed(written.decode())
    reader.close()
    return None if reader.title == title else "its title is %r, and not %r" % (reader.title, title)


def page_differs(reader, written):
    """Says what a page does not say of itself, or answers None."""
    for name, found, wanted in (
        ("its declarations are", reader.declared, ["DOCTYPE html"]),
        ("its language is", reader.language, [("lang", "en")]),
        ("its metas are", reader.metas, METAS),
        ("its style is", rules(reader.style), STYLE),
        ("it ends with", written[-1:], b"\n"),
    ):
        if found != wanted:
            return "%s %r, and not %r" % (name, found, wanted)
    return None


def rules(style):
    """The declarations of a style sheet, by their selectors; what is no rule stands under ''."""
    found = {}
    for part in style.split("}"):
        selector, brace, body = part.partition("{")
        pairs = [it.partition(":")[::2] for it in body.split(";") if it.strip()]
        if part.strip():
            found[selector.strip() if brace else ""] = {a.strip(): b.strip() for a, b in pairs}
    return found
