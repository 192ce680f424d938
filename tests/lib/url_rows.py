"""Addresses in a text, and the HTML by `ansi2html --urls`, worked by hand: an address begins with https://, http:// or mailto:,
in letters of any case, where no character of a scheme stands before it (RFC 3986, 3.1), and goes on with the characters of a URI
(RFC 3986, 2) or an IRI (RFC 3987, 2.2), which the link has byte by byte (RFC 3987, 3.1); marks at its end, brackets that it does
not open and what looks like an entity are no part of it (GitHub Flavored Markdown, 6.9)."""


def address(text, style=b"", link=None):
    """A link to an address, which is its text, `& '` written as references, or another one."""
    shown, href = (it.replace(b"&", b"&amp;").replace(b"'", b"&#39;") for it in (text, link or text))
    inner = b'<span style="%s">%s</span>' % (style, shown) if style else shown
    return b'<a rel="nofollow noreferrer" href="%s" style="color:inherit;">%s</a>' % (href, inner)


LONGEST = b"https://a/" + b"b" * 1012  # 1,022 bytes
PARTED = b"http://a" + b";b" * 12
ESCAPED = b"https://a/" + b"\xc3\xa9" * 168 + b"bbbb"  # 1,022 bytes in the link
STOPS = b"\x1b]8;;http://b/\x1b\\%s\x1b]8;;\x1b\\"

URL_ROWS = [
    ("an address alone", b"https://a.b/c", address(b"https://a.b/c")),
    ("at the end of a line", b"see http://a.b\nc", b"see " + address(b"http://a.b") + b"\nc"),
    ("of mail", b"to mailto:a@b.c, please", b"to " + address(b"mailto:a@b.c") + b", please"),
    ("at the end of a sentence", b"Go to https://a.b/c. Then", b"Go to " + address(b"https://a.b/c") + b". Then"),
    ("before several marks", b"https://a.b/c?!...", address(b"https://a.b/c") + b"?!..."),
    ("in brackets", b"(https://a.b/c)", b"(" + address(b"https://a.b/c") + b")"),
    ("in brackets, before a full stop", b"[https://a.b/c].", b"[" + address(b"https://a.b/c") + b"]."),
    ("with brackets of its own", b"(https://a.b/c_(d))", b"(" + address(b"https://a.b/c_(d)") + b")"),
    ("between angle brackets", b"<https://a.b>", b"&lt;" + address(b"https://a.b") + b"&gt;"),
    ("in quotes", b'"https://a.b" \'http://c.d\'', b"&quot;" + address(b"https://a.b") + b"&quot; &#39;" + address(b"http://c.d") + b"&#39;"),
    ("with & and an apostrophe", b"https://a.b/?c=1&d='e f", address(b"https://a.b/?c=1&d='e") + b" f"),
    ("with a query and a part", b"https://a.b:80/c?d=e%20f#g ", address(b"https://a.b:80/c?d=e%20f#g") + b" "),
    ("of IPv6", b"http://[::1]:80/ x", address(b"http://[::1]:80/") + b" x"),
    ("behind an equals sign", b"url=https://a.b", b"url=" + address(b"https://a.b")),
    ("two", b"http://a https://b", address(b"http://a") + b" " + address(b"https://b")),
    ("followed by a colour", b"http://a\x1b[1mb", address(b"http://a") + b'<span style="font-weight:bold;">b</span>'),
    ("in a style", b"\x1b[1mhttp://a\x1b[mb", address(b"http://a", b"font-weight:bold;") + b"b"),
    ("with a character beyond ASCII", "https://de.wikipedia.org/wiki/\u00d6l".encode(), address("https://de.wikipedia.org/wiki/\u00d6l".encode(), link=b"https://de.wikipedia.org/wiki/%C3%96l")),
    ("in quotes beyond ASCII", "\u201chttp://a\u201d \u00abhttp://b\u00bb".encode(), "\u201c".encode() + address(b"http://a") + "\u201d \u00ab".encode() + address(b"http://b") + "\u00bb".encode()),
    ("in a table", "\u2502http://a\u2502b".encode(), "\u2502".encode() + address(b"http://a") + "\u2502b".encode()),
    ("before a space beyond ASCII", "http://a\u3000b".encode(), address(b"http://a") + "\u3000b".encode()),
    ("ended by a bell", b"http://a\x07b", address(b"http://a") + b"b"),
    ("of the greatest length", LONGEST + b" x", address(LONGEST) + b" x"),
    ("past the greatest length", LONGEST + b"c x", LONGEST + b"c x"),
    ("far past it", LONGEST * 3 + b" x", LONGEST * 3 + b" x"),
    ("in a link of the stream's own", STOPS % b"http://a", b'<a rel="nofollow noreferrer" href="http://b/" style="color:inherit;">http://a</a>'),
    ("behind such a link", STOPS % b"x" + b"http://a", b'<a rel="nofollow noreferrer" href="http://b/" style="color:inherit;">x</a>' + address(b"http://a")),
    ("in a link that is dropped", b"\x1b]8;;javascript:x\x1b\\http://a\x1b]8;;\x1b\\", b"http://a"),
    ("a script", b"javascript:alert(1) ftp://a data:x", b"javascript:alert(1) ftp://a data:x"),
    ("in capitals", b"HTTPS://a.b Http://A", address(b"HTTPS://a.b", link=b"https://a.b") + b" " + address(b"Http://A", link=b"http://A")),
    ("in bold of Markdown", b"**https://a.b** _http://c_ ~~http://d~~", b"**" + address(b"https://a.b") + b"** _" + address(b"http://c") + b"_ ~~" + address(b"http://d") + b"~~"),
    ("in the midst of a word", b"xhttp://a 1https://b git+https://c", b"xhttp://a 1https://b git+https://c"),
    ("a scheme alone", b"http:// https://, mailto:", b"http:// https://, mailto:"),
    ("words that begin so", b"h ht http https http: http:/ mail mailto m\n", b"h ht http https http: http:/ mail mailto m\n"),
    ("cut short at the end", b"see htt", b"see htt"),
    ("a separator of commands", b"http://a/b;c http://d;", address(b"http://a/b;c") + b" " + address(b"http://d") + b";"),
    ("as many of these as a command has room for", PARTED, address(PARTED)),
    ("one more", PARTED + b";b", PARTED + b";b"),
    ("of the greatest length by escaped bytes", ESCAPED + b" x", address(ESCAPED, link=b"https://a/" + b"%C3%A9" * 168 + b"bbbb") + b" x"),
    ("past that", ESCAPED + b"b x", ESCAPED + b"b x"),
    ("cut by a style", b"http\x1b[m://a", b"http://a"),
]

# Those of the examples 622 to 635 of the specification of GitHub's Markdown, and of cmark-gfm's own tests, that have a scheme or can have it put before.
GOOGLE = b"http://www.google.com/search?q="
URL_ROWS += [
    ("GitHub's: with a path", b"Visit http://www.commonmark.org/help for more information.", b"Visit " + address(b"http://www.commonmark.org/help") + b" for more information."),
    ("GitHub's: full stops", b"Visit http://www.commonmark.org.\n\nVisit http://www.commonmark.org/a.b.", b"Visit " + address(b"http://www.commonmark.org") + b".\n\nVisit " + address(b"http://www.commonmark.org/a.b") + b"."),
    ("GitHub's: brackets", GOOGLE + b"Markup+(business)", address(GOOGLE + b"Markup+(business)")),
    ("GitHub's: more brackets closed", GOOGLE + b"Markup+(business)))", address(GOOGLE + b"Markup+(business)") + b"))"),
    ("GitHub's: in brackets", b"(" + GOOGLE + b"Markup+(business))", b"(" + address(GOOGLE + b"Markup+(business)") + b")"),
    ("GitHub's: in a bracket left open", b"(" + GOOGLE + b"Markup+(business)", b"(" + address(GOOGLE + b"Markup+(business)")),
    ("GitHub's: brackets within", GOOGLE + b"(business))+ok", address(GOOGLE + b"(business))+ok")),
    ("GitHub's: what looks like an entity, and goes on", GOOGLE + b"commonmark&hl=en", address(GOOGLE + b"commonmark&hl=en")),
    ("GitHub's: what looks like an entity", GOOGLE + b"commonmark&hl;", address(GOOGLE + b"commonmark") + b"&amp;hl;"),
    ("GitHub's: <", b"http://www.commonmark.org/he<lp", address(b"http://www.commonmark.org/he") + b"&lt;lp"),
    ("GitHub's: in a sentence in brackets", b"(Visit https://encrypted.google.com/search?q=Markup+(business))", b"(Visit " + address(b"https://encrypted.google.com/search?q=Markup+(business)") + b")"),
    ("GitHub's: of mail", b"mailto:foo@bar.baz\n\nmailto:a.b-c_d@a.b.", address(b"mailto:foo@bar.baz") + b"\n\n" + address(b"mailto:a.b-c_d@a.b") + b"."),
    ("cmark-gfm's: beyond ASCII", "http://google.com/\u00e5".encode(), address("http://google.com/\u00e5".encode(), link=b"http://google.com/%C3%A5")),
    ("cmark-gfm's: in bold", b"**Autolink and http://inlines**", b"**Autolink and " + address(b"http://inlines") + b"**"),
    ("cmark-gfm's: a full stop in brackets", b"(Full stop inside parens http://google.com/ok.)", b"(Full stop inside parens " + address(b"http://google.com/ok") + b".)"),
    ("cmark-gfm's: in quotes", b"\"http://google.com\" 'http://google.com'", b"&quot;" + address(b"http://google.com") + b"&quot; &#39;" + address(b"http://google.com") + b"&#39;"),
    ("cmark-gfm's: a host beyond ASCII", "http://\U0001f344.ga/ http://x\U0001f344.ga/".encode(), address("http://\U0001f344.ga/".encode(), link=b"http://%F0%9F%8D%84.ga/") + b" " + address("http://x\U0001f344.ga/".encode(), link=b"http://x%F0%9F%8D%84.ga/")),
    ("entities, one behind another, and none", b"http://a/?b&c;&d1;. http://a?&; http://a&b;c", address(b"http://a/?b") + b"&amp;c;&amp;d1;. " + address(b"http://a?&") + b"; " + address(b"http://a&b;c")),
]

# what is written of the bytes before each of its bytes, and of all of them: the end hands on what is held
URL_CUT = (b"a http://b.", [b"", b"a", b"a ", b"a h", b"a ht", b"a htt", b"a http", b"a http:", b"a http:/", b"a http://", b"a " + address(b"http://b"), b"a " + address(b"http://b") + b"."])
