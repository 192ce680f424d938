"""Streams with links (OSC 8), drawn at random: URIs of good schemes and of others, with quotes, controls and
characters, of 1,100 bytes, of 17 parts, cut, cancelled, and ended. What each character leads to is computed
from what the command says."""

import random
import re

COUNT = 2000
TEXTS = ["a", "bc ", "<b>", "&amp;", "\"'", "\u00e4", "\u6f22", "\t", "\n", "\r\n", "\r", "\x7f"]
STYLES = [
    b"\x1b[31m", b"\x1b[1m", b"\x1b[0m", b"\x1b[7m", b"\x1b[m", b"\x1b[2K", b"\x1b(B", b"\x1b]0;t\x07", b"\x1b]\x07",
]
SCHEMES = [b"https://", b"http://", b"mailto:"] * 4 + [
    b"javascript:", b"data:text/html,", b"HTTPS://", b"https:/", b"http:", b"ftp://", b"file:///", b"mailto", b"",
    b" https://", b"x;https://", b"vbscript:", b"//",
]
RESTS = [
    b"example.org/", b"a?b=1&c=2", b"\"><script>alert(1)</script>", b"' onmouseover='x", b"a b", b"%20", b"a;b", b";",
    b"a;b;c", b"\xc3\xa4", b"\x7f", b"\x80", b"\xff", b"&quot;", b"&#34;", b"<", b"=", b"#x", b"~", b"!", b"\x01", b"\n",
    b"\t", b"", b"a" * 1100, b"a" * 1013, b"a" * 1014, b"a" * 1015, b"a" * 1023, b";" * 12, b";" * 13, b";" * 14,
    b";" * 17, b"javascript:x",
]
PARAMS = [b""] * 4 + [b"id=1", b"id=1:a=b", b"a" * 1000, b"a" * 1024, b"\x02"]
NUMBERS = [b"8"] * 8 + [b"08", b"80", b"", b"7", b"8 ", b"\x038"]
ENDS = [b"\x07", b"\x1b\\"] * 4 + [b"\x18", b"\x1a", b"\x1b[1m"]
MOST_PARTS, MOST_BYTES = 16, 1024


def after(text, link):
    """The link after a command of this text, where this one was selected before."""
    kept = bytes(b for b in text if b >= 0x20)
    parts = kept.split(b";")
    if parts[0] != b"8":
        return link
    if len(parts) >= MOST_PARTS or len(b"".join(parts)) >= MOST_BYTES:
        return ""
    uri = b";".join(parts[2:])
    return uri.decode() if re.fullmatch(rb"(?:https://|http://|mailto:)[\x21-\x7e]*", uri) else ""


def command(draw):
    """The text of a command: most say a link, or end one."""
    if draw.random() < 0.2:
        return draw.choice([b"8;;", b"8;;", b"8;id=1;", b"8", b"8;", b"8;https://a", b"9;;https://a"])
    rests = b"".join(draw.choice(RESTS) for _ in range(draw.choice([0, 1, 1, 1, 2, 3])))
    if draw.random() < 0.4:
        return draw.choice([b"8;;", b"8;id=1;"]) + draw.choice(SCHEMES[:3]) + rests
    return b";".join([draw.choice(NUMBERS), draw.choice(PARAMS), draw.choice(SCHEMES) + rests])


def drawn(seed):
    """A stream, its text and what each character leads to."""
    draw = random.Random(seed)
    stream, text, links, link = b"", "", [], ""
    for _ in range(draw.randrange(1, 30)):
        kind = draw.random()
        if kind < 0.5:
            piece = draw.choice(TEXTS)
            stream, text, links = stream + piece.encode(), text + piece, links + [link] * len(piece)
        elif kind < 0.7:
            stream += draw.choice(STYLES)
        else:
            said = command(draw)
            stream, link = stream + b"\x1b]" + said + draw.choice(ENDS), after(said, link)
    if draw.random() < 0.1:
        stream += b"\x1b]8;;https://exam"  # a URI that is cut: the stream ends
    return stream, text, links
