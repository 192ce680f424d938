"""What the programs must write. Each row is worked by hand from the rules of the parser, and
each digest of a random stream comes from the sources of the Rust crate (docs/DECISIONS.md)."""

import hashlib

from lib.expected_pages import ADDRESS, DARK_LINED_HEAD, DARK_TITLED_HEAD, LIGHT_HEAD, LIGHT_LINED_HEAD, LINED_HEAD, LINKED_HEAD
from lib.expected_pages import LINKED_SCROLLED_HEAD, PAGE_HEAD, PAGE_TAIL, SCROLLED_HEAD, TITLE, TITLED_HEAD, block_rows, in_blocks_begun, line_rows
from lib.expected_pages import numbered, shown_block_rows
from lib.expected_shown import SHOWN_NARROW_ROWS, SHOWN_ROWS, SHOWN_USUAL_ROWS, shown_hostile
from lib.hostile_streams import BLOCK, SIZE, WHOLE, stream, text, times
from lib.log_rows import BEGUN_ROWS, LINES_CUT, READ_ROWS, RETURN_ROWS
from lib.modes import ROOM_SHOWN, Mode, Program
from lib.refusals import PARSELOG_USAGE, refused_by, unknown, wants, wrong_size
from lib.safe_rows import HIDDEN_ROWS, LEFT_OUT_ROWS, SAFE_LEFT_OUT_ROWS, SAFE_ROWS, SAFE_SHOWN_LEFT_OUT_ROWS, SAFE_SHOWN_ROWS, SHOWN_LEFT_OUT_ROWS
from lib.shown_further import FURTHER_MODES
from lib.url_rows import URL_CUT, URL_ROWS, address


def random_bytes():
    """The first 100 MB of SHAKE-128 of the numbers 0, 1, 2 .., each for a block."""
    for at in range(0, WHOLE, BLOCK):
        block = hashlib.shake_128(b"%d" % (at // BLOCK)).digest(BLOCK)
        yield block[: WHOLE - at]


OSC = stream(b"\x1b]", b"a")
DIGITS = stream(b"\x1b[", b"9", b"m")
SEPARATORS = stream(b"\x1b[", b";", b"m")
OSC_SEPARATORS = stream(b"\x1b]", b";", b"\x07")
INTERMEDIATES = stream(b"\x1b", b" ", b"0")
ESCAPES = stream(b"", b"\x1b", b"c")
LEADS = stream(b"", b"\xf0")
ZEROS = b";".join([b"0"] * 32)

# Each lead byte but the last breaks the one before it; for who reads a log the last is broken off at the end.
BROKEN = SIZE - 1
# Of what the Rust crate's sources, with the byte that breaks a character handled again, make of
# random_bytes: its lines, its canonical text. And the stripped text of what a reader reads, without DEL and U+0080 to U+009F: made of
# tests/lib/as_read.py's text of these bytes by a few lines of Python, and by a page of C, which with the rules of a terminal made the
# text of those sources.
LOG_DIGEST = "5c1b5f4578fd31fa299e2a1796cde637ca24e4d72537ed3385a279dda09c02a1"
CANON_DIGEST = "c05a13fefff40f87c445126e531c1f2f69cfea6bcd5a64bc3b0ba643cc09c535"
STRIP_DIGEST = "6c932239a664cfcff2bc8111408f9ea7b88cf57c42cecc159151b3f3eb18d745"


def lines(*them):
    return b"".join(b"%s\n" % it for it in them)


LOG_ROWS = [
    ("text and controls", b"A\x7f\n", lines(b"print U+0041", b"print U+007F", b"execute 0A")),
    ("a control sequence", b"\x1b[m", lines(b"csi_dispatch [0] - false 6D")),
    (
        "subparameters",
        b"\x1b[38:2:255:0:255;1m",
        lines(b"csi_dispatch [38:2:255:0:255;1] - false 6D"),
    ),
    ("an operating system command", b"\x1b]0;x\x1b\\", lines(b"osc_dispatch false 30 78", b"esc_dispatch - false 5C")),
    (
        "a device control string",
        b"\x1bP1$qm\x1b\\",
        lines(b"hook [1] 24 false 71", b"put 6D", b"unhook", b"esc_dispatch - false 5C"),
    ),
    ("a character", b"\xe2\x82\xac", lines(b"print U+20AC")),
    ("an unfinished character", b"\xe2\x82", b""),
    (
        "a character broken by a sequence",
        b"\xc3\x1b[m",
        lines(b"print U+FFFD", b"csi_dispatch [0] - false 6D"),
    ),
    ("32 fields", b"\x1b[" + b";" * 31 + b"m", lines(b"csi_dispatch [" + ZEROS + b"] - false 6D")),
    ("33 fields", b"\x1b[" + b";" * 32 + b"m", lines(b"csi_dispatch [" + ZEROS + b"] - true 6D")),
    ("a number past the largest", b"\x1b[99999m", lines(b"csi_dispatch [65535] - false 6D")),
    ("a marker and two intermediates", b"\x1b[?! h", lines(b"csi_dispatch [0] 3F21 true 68")),
    ("a control in a control sequence", b"\x1b[1\nm", lines(b"execute 0A", b"csi_dispatch [1] - false 6D")),
    ("a control sequence cancelled", b"\x1b[1\x18m", lines(b"execute 18", b"print U+006D")),
    ("a digit after an intermediate", b"\x1b[1 2m", b""),
    ("17 parts", b"\x1b];;;;;;;;;;;;;;;;x\x07", lines(b"osc_dispatch true" + b" -" * 16)),
    ("a command with no text", b"\x1b]\x07", lines(b"osc_dispatch true -")),
    (
        "9C in the header of a string, 7F and 80 in it",
        b"\x1bP1\x9cqA\x7f\x80\x9c",
        lines(b"hook [1] - false 71", b"put 41", b"unhook"),
    ),
    ("a string cancelled", b"\x1bPq\x18", lines(b"hook [0] - false 71", b"unhook", b"execute 18")),
    ("a surrogate", b"\xed\xa0\x80", lines(b"print U+FFFD", b"execute 80")),
    (
        "a character broken by ESC, and ESC again",
        b"\xc3\x1b\x1b[m",
        lines(b"print U+FFFD", b"csi_dispatch [0] - false 6D"),
    ),
    (
        "a command ended by ESC, and ESC again",
        b"\x1b]a\x1b\x1b[m",
        lines(b"osc_dispatch false 61", b"csi_dispatch [0] - false 6D"),
    ),
    ("a last field with no digit", b"\x1b[4;m", lines(b"csi_dispatch [4;0] - false 6D")),
    ("a private mode", b"\x1b[?1049h", lines(b"csi_dispatch [1049] 3F false 68")),
    ("an escape sequence that ends in [", b"\x1b([", lines(b"esc_dispatch 28 false 5B")),
    ("four intermediates", b"\x1b !\"#0", lines(b"esc_dispatch 2021 true 30")),
    ("9C in a command", b"\x1b]a\x9cb\x07", lines(b"osc_dispatch true 619C62")),
    ("BEL in a string of no call", b"\x1bXa\x07b\x9cc", lines(b"print U+0063")),
    ("a digit after an intermediate of a string", b"\x1bP1 2q\x9cA", lines(b"print U+0041")),
    ("a control after ESC", b"\x1b\nPq", lines(b"execute 0A", b"hook [0] - false 71")),
    ("a control in the header of a string", b"\x1bP\nq", lines(b"hook [0] - false 71")),
    ("80 in a control sequence", b"\x1b[\x801m", lines(b"csi_dispatch [1] - false 6D")),
    ("a command cancelled", b"\x1b]0;x\x18", lines(b"osc_dispatch false 30 78", b"execute 18")),
    ("90 and 9C after a character", b"\xf0\x9f\x98\x80\x90\x9c", lines(b"print U+1F600", b"execute 9C")),
    ("CAN in text", b"A\x18\n", lines(b"print U+0041", b"execute 18", b"execute 0A")),
    ("a control sequence broken by the next", b"\x1b[1\x1b[2m", lines(b"csi_dispatch [2] - false 6D")),
    ("ESC twice", b"\x1b\x1bc", lines(b"esc_dispatch - false 63")),
    ("7F and a control after ESC", b"\x1b\x7f\nc", lines(b"execute 0A", b"esc_dispatch - false 63")),
    ("ESC cancelled", b"\x1b\x18c", lines(b"execute 18", b"print U+0063")),
    (
        "a private mode with no digit",
        b"\x1b[?h\x1bc",
        lines(b"csi_dispatch [0] 3F false 68", b"esc_dispatch - false 63"),
    ),
    ("two markers", b"\x1b[<?m", b""),
    ("a marker after a digit", b"\x1b[1<\n2mA", lines(b"execute 0A", b"print U+0041")),
    ("two empty parts", b"\x1b];\x07", lines(b"osc_dispatch true - -")),
    (
        "a control in a command",
        b"\x1b]a\nb\x1b[m",
        lines(b"osc_dispatch false 6162", b"csi_dispatch [0] - false 6D"),
    ),
    (
        "a control before a command",
        b"\x1b\n]a\x18",
        lines(b"execute 0A", b"osc_dispatch false 61", b"execute 18"),
    ),
    (
        "a string ended by the next",
        b"\x1bPqA\x1bPr",
        lines(b"hook [0] - false 71", b"put 41", b"unhook", b"hook [0] - false 72"),
    ),
    ("33 fields of a string", b"\x1bP" + b";" * 32 + b"q", lines(b"hook [" + ZEROS + b"] - true 71")),
    ("two markers of a string", b"\x1bP<1?qA\x9cB", lines(b"print U+0042")),
    ("a control in a string", b"\x1bPq\n\x7f\x80\x9c", lines(b"hook [0] - false 71", b"put 0A", b"unhook")),
    ("the header of a string cancelled", b"\x1bP1\x18", lines(b"execute 18")),
    ("a string of no call cancelled", b"\x1b_a\x18", lines(b"execute 18")),
    ("9C in the header of a string", b"\x1bP1\x9cqA", lines(b"hook [1] - false 71", b"put 41")),
    (
        "a character of two bytes broken by CAN",
        b"\xc2\x18A",
        lines(b"print U+FFFD", b"execute 18", b"print U+0041"),
    ),
    (
        "a character of three bytes broken by ESC",
        b"\xe2\x82\x1bc",
        lines(b"print U+FFFD", b"esc_dispatch - false 63"),
    ),
    ("C3 after ESC", b"\x1b\xc3c", lines(b"esc_dispatch - false 63")),
    ("a character in a command", b"\x1b]\xc3\xa9\x07", lines(b"osc_dispatch true C3A9")),
    (
        "a string ended by ESC, and ESC again",
        b"\x1bPq\x1b\x1b[m",
        lines(b"hook [0] - false 71", b"unhook", b"csi_dispatch [0] - false 6D"),
    ),
    (
        "a character of four bytes broken by ESC, and ESC again",
        b"\xf0\x9f\x98\x1b\x1b[m",
        lines(b"print U+FFFD", b"csi_dispatch [0] - false 6D"),
    ),
    ("digits cancelled", b"\x1b[99\x18A", lines(b"execute 18", b"print U+0041")),
    ("F0 broken by ESC", b"\xf0\x1b[A", lines(b"print U+FFFD", b"csi_dispatch [0] - false 41")),
    (
        "a character of four bytes broken by CAN",
        b"\xf0\x9f\x18A",
        lines(b"print U+FFFD", b"execute 18", b"print U+0041"),
    ),
    (
        "a character of four bytes broken by a command",
        b"\xf0\x9f\x98\x1b]a\x07",
        lines(b"print U+FFFD", b"osc_dispatch true 61"),
    ),
    ("C0", b"\xc0A", lines(b"print U+0041")),
    ("F5", b"\xf5A", lines(b"print U+0041")),
    ("a character broken by the same", b"\xc3\xc3\xa9", lines(b"print U+FFFD", b"print U+00E9")),
    ("a character broken by another", b"\xc3\xe2\x82\xac", lines(b"print U+FFFD", b"print U+20AC")),
    (
        "90 and 9C after two characters",
        b"\xe2\x82\xac\xf0\x9f\x98\x80\x90\x9c",
        lines(b"print U+20AC", b"print U+1F600", b"execute 9C"),
    ),
    (
        "the last character, and a surrogate",
        b"\xf4\x8f\xbf\xbf\xed\xa0\x80",
        lines(b"print U+10FFFF", b"print U+FFFD", b"execute 80"),
    ),
    ("a title", b"\x1b]2;ti\x07", lines(b"osc_dispatch true 32 7469")),
    (
        "1024 bytes of a command, and a part",
        b"\x1b]" + b"a" * 1024 + b";b\x07",
        lines(b"osc_dispatch true " + b"61" * 1024),
    ),
    (
        "1023 bytes of a command, and two of a part",
        b"\x1b]" + b"a" * 1023 + b";bc\x07",
        lines(b"osc_dispatch true " + b"61" * 1023 + b" 62"),
    ),
    (
        "17 parts, the last of 1024 bytes",
        b"\x1b]a" + b";" * 16 + b"x" * 1024 + b"\x07",
        lines(b"osc_dispatch true 61" + b" -" * 15),
    ),
]

CANON_ROWS = [
    ("text and controls", b"A\x7f\n", b"A\x7f\n"),
    ("a control sequence", b"\x1b[m", b"\x1b[0m"),
    ("subparameters", b"\x1b[38:2:255:0:255;1m", b"\x1b[38:2:255:0:255;1m"),
    ("an operating system command", b"\x1b]0;x\x1b\\", b"\x1b]0;x\x1bX\x9c\x1b\\"),
    ("a device control string", b"\x1bP1$qm\x1b\\", b"\x1bP1$qm\x9c\x1b\\"),
    ("a character", b"\xe2\x82\xac", b"\xe2\x82\xac"),
    ("an unfinished character", b"\xe2\x82", b""),
    ("a character broken by a sequence", b"\xc3\x1b[m", b"\xef\xbf\xbd\x1b[0m"),
    ("a number past the largest", b"\x1b[99999m", b"\x1b[65535m"),
    ("a marker and two intermediates", b"\x1b[?! h", b"\x1b[?0! h"),
    ("a control in a control sequence", b"\x1b[1\nm", b"\n\x1b[1m"),
    ("a control sequence cancelled", b"\x1b[1\x18m", b"\x18m"),
    ("a digit after an intermediate", b"\x1b[1 2m", b""),
    ("a command with no text", b"\x1b]\x07", b"\x1b]\x07"),
    ("9C in the header of a string, 7F and 80 in it", b"\x1bP1\x9cqA\x7f\x80\x9c", b"\x1bP1qA\x9c"),
    ("a string cancelled", b"\x1bPq\x18", b"\x1bP0q\x9c\x18"),
    ("a surrogate", b"\xed\xa0\x80", b"\xef\xbf\xbd\x80"),
    ("a last field with no digit", b"\x1b[4;m", b"\x1b[4;0m"),
    ("a private mode", b"\x1b[?1049h", b"\x1b[?1049h"),
    ("an escape sequence that ends in [", b"\x1b([", b"\x1b(["),
    ("four intermediates", b"\x1b !\"#0", b"\x1b ! 0"),
    ("9C in a command", b"\x1b]a\x9cb\x07", b"\x1b]a\x9cb\x07"),
    ("BEL in a string of no call", b"\x1bXa\x07b\x9cc", b"c"),
    ("a digit after an intermediate of a string", b"\x1bP1 2q\x9cA", b"A"),
    ("a control after ESC", b"\x1b\nPq", b"\n\x1bP0q"),
    ("a control in the header of a string", b"\x1bP\nq", b"\x1bP0q"),
    ("80 in a control sequence", b"\x1b[\x801m", b"\x1b[1m"),
    ("a command cancelled", b"\x1b]0;x\x18", b"\x1b]0;x\x1bX\x9c\x18"),
    ("90 and 9C after a character", b"\xf0\x9f\x98\x80\x90\x9c", b"\xf0\x9f\x98\x80\x9c"),
    ("a control sequence broken by the next", b"\x1b[1\x1b[2m", b"\x1b[2m"),
    ("a control before a command", b"\x1b\n]a\x18", b"\n\x1b]a\x1bX\x9c\x18"),
    ("a control in a command", b"\x1b]a\nb\x1b[m", b"\x1b]ab\x1bX\x9c\x1b[0m"),
    ("a string ended by the next", b"\x1bPqA\x1bPr", b"\x1bP0qA\x9c\x1bP0r"),
    ("32 fields", b"\x1b[" + b";" * 31 + b"m", b"\x1b[" + b"0;" * 31 + b"0m"),
    ("33 fields", b"\x1b[" + b";" * 32 + b"m", b"\x1b[" + b"0;" * 32 + b"m"),
    (
        "1024 bytes of a command, and a part",
        b"\x1b]" + b"a" * 1024 + b";b\x07",
        b"\x1b]" + b"a" * 1024 + b"\x07",
    ),
    ("17 parts", b"\x1b]" + b";" * 16 + b"x\x07", b"\x1b]" + b";" * 15 + b"\x07"),
    ("33 fields of a string", b"\x1bP" + b";" * 32 + b"q", b"\x1bP" + b"0;" * 32 + b"q"),
]

# An operating system command and an escape sequence: by the sixth byte the command has ended.
LOG_CUT = (
    b"\x1b]0;x\x1b\\",
    [b""] * 6
    + [
        lines(b"osc_dispatch false 30 78"),
        lines(b"osc_dispatch false 30 78", b"esc_dispatch - false 5C"),
    ],
)

CANON_CUT = (b"\x1b]0;x\x1b\\", [b""] * 6 + [b"\x1b]0;x\x1bX\x9c", b"\x1b]0;x\x1bX\x9c\x1b\\"])

LOG_HOSTILE = [
    ("an operating system command that never ends", OSC, text(b"")),
    ("digits", DIGITS, text(lines(b"csi_dispatch [65535] - false 6D"))),
    ("separators", SEPARATORS, text(lines(b"csi_dispatch [" + ZEROS + b"] - true 6D"))),
    (
        "separators of a command's parts",
        OSC_SEPARATORS,
        text(lines(b"osc_dispatch true" + b" -" * 16)),
    ),
    ("intermediates", INTERMEDIATES, text(lines(b"esc_dispatch 2020 true 30"))),
    ("ESC", ESCAPES, text(lines(b"esc_dispatch - false 63"))),
    ("lead bytes", LEADS, times(b"print U+FFFD\n", BROKEN)),
    ("random bytes", random_bytes, LOG_DIGEST),
]

CANON_HOSTILE = [
    ("lead bytes", LEADS, times(b"\xef\xbf\xbd", BROKEN)),
    ("random bytes", random_bytes, CANON_DIGEST),
]

STRIP_ROWS = [
    ("colours and a bell", b"\x1b[31mhi\x07\x1b[0m\n", b"hi\n"),
    ("an operating system command", b"\x1b]0;x\x07a\r\n", b"a\r\n"),
    ("a device control string", b"\x1bPqA\x1b\\B", b"B"),
    ("a control in a control sequence", b"\x1b[1\nm", b"\n"),
    ("a tab, and a vertical one", b"\ta\vb", b"\tab"),
    ("7F, bytes above it, and U+0080", b"\x7f\x80\x9c\xc2\x80", b"\xef\xbf\xbd\xef\xbf\xbd"),
    ("U+009B, which terminals take for a control", b"\xc2\x9bc", b"c"),
    ("U+0080 to U+00A0, with 7E to 7F", "a~\x7f\x80\x9f\xa0b".encode(), b"a~\xc2\xa0b"),
    ("U+009D and U+009C around a title", "\x9d0;t\x9ca".encode(), b"0;ta"),
    ("DEL between characters of several bytes", b"\xe2\x82\xac\x7f\xc2\xa9\x7f", b"\xe2\x82\xac\xc2\xa9"),
    ("U+0085 in a sequence and behind it", b"\x1b[1\xc2\x85mx\xc2\x85\n", b"x\n"),
    ("a character broken by U+009B", b"\xe2\x82\xc2\x9b1m", b"\xef\xbf\xbd1m"),
    ("bytes of one, but of two characters", b"\xc3\x82\xc2\xa0\xdf\x9b\xc2", b"\xc3\x82\xc2\xa0\xdf\x9b\xef\xbf\xbd"),
    ("a broken character", b"\xc3(", b"\xef\xbf\xbd("),
    ("a character broken by a sequence", b"\xc3\x1b[mA", b"\xef\xbf\xbdA"),
    ("text, stripped again", b"hi\n\xc2\xa0\xef\xbf\xbd(", b"hi\n\xc2\xa0\xef\xbf\xbd("),
    ("controls", b"a\tb\x0bc\x0cd\x08e\x00", b"a\tbcde"),
    ("characters", b"\xe2\x82\xac\xf0\x9f\x98\x80", b"\xe2\x82\xac\xf0\x9f\x98\x80"),
    ("bytes that begin no character", b"a\xff\xc0b", b"a\xef\xbf\xbd\xef\xbf\xbdb"),
    ("a link", b"\x1b]8;;http://a/\x1b\\link\x1b]8;;\x1b\\!", b"link!"),
    ("layout in a device control string", b"\x1bPq\n\t\rA", b""),
    ("strings of no call", b"\x1b_a\x1b\\\x1b^b\x1b\\\x1bXc\x1b\\d", b"d"),
    ("escape sequences", b"\x1b(B\x1b7\x1bM.", b"."),
    ("an unfinished sequence", b"text\x1b[3", b"text"),
    ("a character broken by a command", b"\xe2\x82\x1b]0;x\x07\n", b"\xef\xbf\xbd\n"),
    *READ_ROWS,
    *BEGUN_ROWS,
    ("BEL in a control sequence and in text", b"\x1b[\x071mc\x07\n", b"c\n"),
    ("a string that CAN breaks off", b"\x1b_h\x18i\n", b"i\n"),
]

# What --lf writes: of these rows CR LF alone is another text. As dos2unix does it, one CR goes before each LF, and of CR alone none.
LINES_ROWS = [(name, given, text.replace(b"\r\n", b"\n")) for name, given, text in STRIP_ROWS] + RETURN_ROWS

LEFT_OUT_LINE = b"\x1b[8mb\x1b[mA\n", b"A\n"

STRIP_CUT = (b"\x1b[31mhi\x07\x1b[0m\n", [b""] * 6 + [b"h"] + [b"hi"] * 6 + [b"hi\n"])

STRIP_HOSTILE = [
    (name, blocks, text(b"") if name != "lead bytes" else times(b"\xef\xbf\xbd", SIZE))
    for name, blocks, _ in LOG_HOSTILE[:-1]
] + [
    ("random bytes", random_bytes, STRIP_DIGEST),
]


def span(style, text=b"x"):
    return b'<span style="%s">%s</span>' % (style, text)


def link(href, style=b"", text=b"x"):
    inner = span(style, text) if style else text
    return b'<a rel="nofollow noreferrer" href="%s" style="color:inherit;">%s</a>' % (href, inner)


def linked(uri, text=b"x", params=b""):
    """A text with a link, as egmontkob's "Hyperlinks in terminal emulators" says: OSC 8 ; params ; URI ST."""
    return b"\x1b]8;%s;%s\x1b\\%s\x1b]8;;\x1b\\" % (params, uri, text)


BOTH, LIGHT, DARK = "both", "light", "dark"


def themed(scheme, name, light, dark):
    """A colour of the page: for one scheme, or for light pages first and then for both."""
    plain = b"%s:%s;" % (name, dark if scheme == DARK else light)
    return plain + b"%s:light-dark(%s,%s);" % (name, light, dark) if scheme == BOTH else plain


# Clauses say that the HTML is read back, that it has as much contrast as WCAG asks for, and not that it
# has as few spans as these rows, nor that the definitions' colours and declarations are those of CSS
# and xterm.
def html_rows(scheme):
    shades = lambda light, dark: themed(scheme, b"color", light, dark)
    grounds = lambda light, dark: themed(scheme, b"background-color", light, dark)
    reversed_ground = grounds(b"#000000", b"#ffffff")
    return [
        ("plain text", b"hi\t\r\n", b"hi\t&#13;\n"),
        ("an operating system command", b"\x1b]0;x\x07a\n", b"a\n"),
        ("colours of no text", b"\x1b[31m\x1b[1m", b""),
        ("a broken character", b"\xc3(", b"\xef\xbf\xbd("),
        ("a tab in text", b"plain\tx\r\n", b"plain\tx&#13;\n"),
        # (by the HTML standard, 13.2.3.5, a browser reads 0D, with or without 0A behind it, as 0A, but not
        # a reference to it; that ends no line, where a bare 0D did)
        ("a carriage return", b"10%\r20%", b"10%&#13;<br>20%"),
        ("carriage returns", b"a\r\rb\r\r\n\rc", b"a&#13;<br>&#13;<br>b&#13;<br>&#13;\n&#13;<br>c"),
        ("a carriage return and a tab", b"a\r\tb", b"a&#13;<br>\tb"),
        ("a carriage return, and then what is no text", b"a\r\x1b[K\x07\x1b]0;x\x07b", b"a&#13;<br>b"),
        ("a carriage return at the end", b"\ra\r", b"&#13;<br>a&#13;"),
        (
            "a carriage return before text of another style",
            b"\x1b[1ma\r\x1b[mb",
            span(b"font-weight:bold;", b"a&#13;") + b"<br>b",
        ),
        (
            "a carriage return before a line feed of another style",
            b"a\r\x1b[1m\nb",
            b"a&#13;" + span(b"font-weight:bold;", b"\nb"),
        ),
        ("markup", b"<b>&\"'</b>", b"&lt;b&gt;&amp;&quot;&#39;&lt;/b&gt;"),
        ("references", b"&amp;&#60;", b"&amp;amp;&amp;#60;"),
        ("characters", "n\u00e4\u00efve \u20ac \U0001f600".encode(), "n\u00e4\u00efve \u20ac \U0001f600".encode()),
        ("a character broken by markup", b"\xc3<b", "\ufffd&lt;b".encode()),
        ("bytes that begin no character", b"\xffa\x80\x9bb", "\ufffda\ufffd\ufffdb".encode()),
        *(row for row in READ_ROWS if b"\x1b[" not in row[1]),
        *BEGUN_ROWS,
        (
            "a stamp that BEL ends, and a byte of no character in colour",
            b"\x1b_bk;t=17\x07\x1b[31m\xe4\x1b[m\xa0\n",
            span(shades(b"#cf222e", b"#ff7b72"), b"\xef\xbf\xbd") + b"\xef\xbf\xbd\n",
        ),
        ("controls", b"a\x00\x07\x08\x0bb", b"ab"),
        ("a script in a title", b"\x1b]0;<script>alert(1)</script>\x07x", b"x"),
        ("a script in a link", b"\x1b]8;;javascript:alert(1)\x1b\\link\x1b]8;;\x1b\\", b"link"),
        ("a link", linked(b"https://a.b/c?d=1&e") + b"y", link(b"https://a.b/c?d=1&amp;e") + b"y"),
        ("a link to a mailbox, with an id", linked(b"mailto:a@b", params=b"id=1"), link(b"mailto:a@b")),
        ("a link that a bell ends", b"\x1b]8;;http://a\x07x\x1b]8;;\x07y", link(b"http://a") + b"y"),
        ("a link to the end", b"\x1b]8;;http://a\x07x", link(b"http://a")),
        ("quotes in a link", linked(b"https://a/\"><b>'"), link(b"https://a/&quot;&gt;&lt;b&gt;&#39;")),
        ("separators in a link", linked(b"https://a/;b;;c"), link(b"https://a/;b;;c")),
        ("a link to data", linked(b"data:text/html,x"), b"x"),
        ("a link in large letters", linked(b"HTTPS://a"), b"x"),
        ("a link without its colon", linked(b"mailto"), b"x"),
        ("a space in a link", linked(b"https://a b"), b"x"),
        ("DEL in a link", linked(b"https://a\x7f"), b"x"),
        ("a character in a link", linked(b"https://\xc3\xa4"), b"x"),
        # (with the 8 a command has 1,024 bytes, of which the last may have been followed by more)
        ("a link of 1,022 bytes", linked(b"https://" + b"a" * 1014), link(b"https://" + b"a" * 1014)),
        ("a link of 1,023 bytes", linked(b"https://" + b"a" * 1015), b"x"),
        ("a link of 15 parts", linked(b"https://" + b";" * 12), link(b"https://" + b";" * 12)),
        ("a link of 16 parts", linked(b"https://" + b";" * 13), b"x"),
        ("a link that another one ends", b"\x1b]8;;http://a\x07x\x1b]8;;file:///\x07y", link(b"http://a") + b"y"),
        (
            "a link in a style",
            b"\x1b[1m" + linked(b"http://a") + b"y",
            link(b"http://a", b"font-weight:bold;") + span(b"font-weight:bold;", b"y"),
        ),
        (
            "a link of two styles",
            linked(b"http://a", b"x\x1b[31my"),
            link(b"http://a", b"", b"x" + span(shades(b"#cf222e", b"#ff7b72"), b"y")),
        ),
        ("the same link twice", linked(b"http://a") + linked(b"http://a", b"y"), link(b"http://a", b"", b"xy")),
        ("links of no text", b"\x1b]8;;http://a\x07\x1b]8;;\x07" + linked(b"http://b", b"\x1b[1m"), b""),
        ("a title in a link", linked(b"http://a", b"x\x1b]0;t\x07y"), link(b"http://a", b"", b"xy")),
        ("a carriage return in a link", linked(b"http://a", b"a\rb"), link(b"http://a", b"", b"a&#13;<br>b")),
        ("markup in strings", b"\x1bPq<b>\x1b\\\x1b_<b>\x1b\\\x1b[2J\x1b[?25lx", b"x"),
        ("bold, and no more", b"\x1b[1mb\x1b[m.", span(b"font-weight:bold;", b"b") + b"."),
        ("bold to the end", b"\x1b[1mb", span(b"font-weight:bold;", b"b")),
        ("styles of no text", b"\x1b[1m\x1b[m\x1b[1m", b""),
        ("bold, selected again", b"\x1b[1ma\x1b[22;1mb", span(b"font-weight:bold;", b"ab")),
        (
            "bold, then italic too",
            b"\x1b[1ma\x1b[3mb",
            span(b"font-weight:bold;", b"a") + span(b"font-weight:bold;font-style:italic;", b"b"),
        ),
        ("bold on two lines", b"\x1b[1ma\nb", span(b"font-weight:bold;", b"a\nb")),
        ("hidden", b"\x1b[8mx", span(b"visibility:hidden;")),
        (
            "lines and blink",
            b"\x1b[4:3;53;9;5mx",
            span(b"text-decoration-line: underline overline line-through blink;text-decoration-style:wavy;"),
        ),
        ("underlined", b"\x1b[4mx", span(b"text-decoration-line: underline;")),
        ("red", b"\x1b[31mx", span(shades(b"#cf222e", b"#ff7b72"))),
        ("bright white", b"\x1b[97mx", span(shades(b"#656d76", b"#ffffff"))),
        ("colour 9", b"\x1b[38;5;9mx", span(shades(b"#a40e26", b"#ffa198"))),
        # (on a background that the stream coloured, xterm's red and yellow)
        ("yellow on red", b"\x1b[33;41mx", span(b"color:#cdcd00;background-color:#cd0000;")),
        ("reverse yellow on red", b"\x1b[7;33;41mx", span(b"color:#cd0000;background-color:#cdcd00;")),
        # (a background alone, under white or black)
        ("on red", b"\x1b[41mx", span(b"color:#ffffff;background-color:#cd0000;")),
        ("on white", b"\x1b[48;5;231mx", span(b"color:#000000;background-color:#ffffff;")),
        ("reverse red", b"\x1b[7;31mx", span(b"color:#ffffff;background-color:#cd0000;")),
        # (shades of a colour by red, green and blue; and of xterm's cube and greys)
        ("red, green and blue", b"\x1b[38;2;1;171;255mx", span(shades(b"#0075af", b"#01abff"))),
        ("colour 16", b"\x1b[38;5;16mx", span(shades(b"#000000", b"#909090"))),
        ("colour 196", b"\x1b[38;5;196mx", span(shades(b"#df0000", b"#ff3030"))),
        ("colour 67", b"\x1b[38;5;67mx", span(shades(b"#537699", b"#698fb4"))),
        ("colour 231", b"\x1b[38;5;231mx", span(shades(b"#6f6f6f", b"#ffffff"))),
        ("colour 232", b"\x1b[38;5;232mx", span(shades(b"#080808", b"#939393"))),
        ("colour 255", b"\x1b[38;5;255mx", span(shades(b"#686868", b"#eeeeee"))),
        # (the page's own colours, and red, on a background of its own text)
        ("reverse", b"\x1b[7mx", span(shades(b"#ffffff", b"#000000") + reversed_ground)),
        ("reverse on red", b"\x1b[7;41mx", span(shades(b"#ff7b72", b"#cf222e") + reversed_ground)),
        # (dim is a shade of its own; what is not read when it is dim, stays)
        ("dim", b"\x1b[2mx", span(shades(b"#4f4f4f", b"#afafaf"))),
        ("dim red", b"\x1b[2;31mx", span(shades(b"#b4535a", b"#be7570"))),
        ("dim colour 196", b"\x1b[2;38;5;196mx", span(shades(b"#cf4040", b"#d27070"))),
        ("dim on green", b"\x1b[2;42mx", span(b"color:#004000;background-color:#00cd00;")),
        ("dim on red", b"\x1b[2;41mx", span(b"color:#ffffff;background-color:#cd0000;")),
        ("dim and reverse", b"\x1b[2;7mx", span(shades(b"#afafaf", b"#4f4f4f") + reversed_ground)),
    ]


def classed(names, text=b"x"):
    return b'<span class="%s">%s</span>' % (b" ".join(b"ansi-" + it for it in names.split()), text)


# The names of classes: f, r and t are a text on the page, on a ground of the page's own text and on one that is
# chosen; i is the text on one that is, where none is chosen for it; b is that ground; d before f, r or i is dim.
CLASS_ROWS = [
    ("plain text", b"a<b\r\n", b"a&lt;b&#13;\n"),
    ("red", b"\x1b[31mx\x1b[my", classed(b"f1") + b"y"),
    ("bright white", b"\x1b[97mx", classed(b"f15")),
    ("colour 208", b"\x1b[38;5;208mx", classed(b"f208")),
    ("on colour 208", b"\x1b[48;5;208mx", classed(b"i208 b208")),
    ("yellow on red", b"\x1b[33;41mx", classed(b"t3 b1")),
    ("dim yellow on red", b"\x1b[2;33;41mx", classed(b"t3 b1")),
    ("dim on red", b"\x1b[2;41mx", classed(b"di1 b1")),
    ("reverse yellow on red", b"\x1b[7;33;41mx", classed(b"t1 b3")),
    ("reverse", b"\x1b[7mx", classed(b"r reverse")),
    ("reverse on red, dim", b"\x1b[7;41;2mx", classed(b"dr1 reverse")),
    ("dim", b"\x1b[2mx", classed(b"df")),
    ("dim red", b"\x1b[2;31mx", classed(b"df1")),
    # (0, 175, 255 of the cube is 1, 4 and 0 away; and 118, 118, 118 of the greys 2, 3 and 4)
    ("near the cube", b"\x1b[38;2;1;171;255mx", classed(b"f39")),
    ("near a grey", b"\x1b[38;2;120;121;122mx", classed(b"f243")),
    # (as near to 95 as to 135; and what stands twice, in the cube and in the greys)
    ("between two", b"\x1b[38;2;115;0;0mx", classed(b"f52")),
    ("a grey of the cube", b"\x1b[38;2;0;0;0mx\x1b[38;2;255;255;255my", classed(b"f16") + classed(b"f231", b"y")),
    ("attributes", b"\x1b[1;3;8mx", classed(b"bold italic hidden")),
    ("lines", b"\x1b[4:3;53;9;5mx", classed(b"uosk wavy")),
    ("underlined", b"\x1b[4mx\x1b[21my", classed(b"u") + classed(b"u double", b"y")),
    (
        "links",
        linked(b"http://a/&") + b"\x1b[1;31m" + linked(b"http://b"),
        b'<a rel="nofollow noreferrer" href="http://a/&amp;" class="ansi-link">x</a>'
        b'<a rel="nofollow noreferrer" href="http://b" class="ansi-link"><span class="ansi-f1 ansi-bold">x</span></a>',
    ),
]

# What a person sees, in colours: each line has spans of its own.
RED_TEXT = themed(BOTH, b"color", b"#cf222e", b"#ff7b72")
ON_RED = b"color:#ffffff;background-color:#cd0000;"
def osc8(uri):
    return b"\x1b]8;;" + uri + b"\x07"


def in_link(href, text, style=b""):
    return link(href, style, text)


HTTP_A = osc8(b"http://a")
MANY_LINKS = b"".join(osc8(b"http://%d" % n) + b"\r%d\x1b[K" % (n % 10) + osc8(b"") for n in range(1023))
SHOWN_LINK_ROWS = [
    ("a link over text", osc8(b"https://a/") + b"\x1b[31mit" + osc8(b"") + b"!\n", in_link(b"https://a/", b"it", RED_TEXT) + span(RED_TEXT, b"!") + b"\n"),
    ("two links on a row", HTTP_A + b"a" + osc8(b"mailto:b") + b"b" + osc8(b"") + b"\n", in_link(b"http://a", b"a") + in_link(b"mailto:b", b"b") + b"\n"),
    ("a link over a line that wrapped", HTTP_A + b"a" * 99 + b"\n", in_link(b"http://a", b"a" * 99) + b"\n"),
    ("a link that is written over in part", HTTP_A + b"abc" + osc8(b"") + b"\rx\n", b"x" + in_link(b"http://a", b"bc") + b"\n"),
    ("a link that is erased", HTTP_A + b"abc\x1b[2D\x1b[K" + osc8(b"") + b"z\n", in_link(b"http://a", b"a") + b"z\n"),
    ("a place passed over in a link", HTTP_A + b"a\x1b[4Gb\n", in_link(b"http://a", b"a") + b"  " + in_link(b"http://a", b"b") + b"\n"),
    ("a link that scrolls off", HTTP_A + b"a" + osc8(b"") + b"\n" * 30 + b"z", in_link(b"http://a", b"a") + b"\n" * 30 + b"z\n"),
    ("a link to a script", osc8(b"javascript:a") + b"a" + osc8(b"") + b"\n", b"a\n"),
    ("a quote in a link", osc8(b"http://a\"'<") + b"a\n", in_link(b"http://a&quot;&#39;&lt;", b"a") + b"\n"),
    ("a link behind others", HTTP_A + osc8(b"http://b") + b"b\n" + osc8(b"") + b"c\n", in_link(b"http://b", b"b") + b"\nc\n"),
    ("a wide character and a mark in a link", HTTP_A + "漢".encode() + osc8(b"") + "\u0301".encode() + b"\n", in_link(b"http://a", "漢\u0301".encode()) + b"\n"),
    ("a link that SGR, DECSC, DECRC and DECSTR leave", HTTP_A + b"\x1b7\x1b[m\x1b8\x1b[!pa\n", in_link(b"http://a", b"a") + b"\n"),
    ("a link that RIS ends", HTTP_A + b"a\x1bcb\n", in_link(b"http://a", b"a") + b"\nb\n"),
    ("a link on the main screen at the end", HTTP_A + b"a" + osc8(b"") + b"\x1b[?1049h\rb", in_link(b"http://a", b"a") + b"\nb\n"),
    ("a link behind 1023 more", HTTP_A + b"a\n" + MANY_LINKS + b"\n", in_link(b"http://a", b"a") + b"\n" + in_link(b"http://1022", b"2") + b"\n"),
    ("a link behind 1024 more", HTTP_A + b"a\n" + MANY_LINKS + HTTP_A + b"\n", b"a\n" + in_link(b"http://1022", b"2") + b"\n"),
]

SHOWN_HTML_ROWS = [
    ("colours that scroll off", b"\x1b[31ma\x1b[m\nb\n" * 300 + b"c", (span(RED_TEXT, b"a") + b"\nb\n") * 300 + b"c\n"),
    ("a style over lines", b"\x1b[1ma\n\nb\n", span(b"font-weight:bold;", b"a") + b"\n\n" + span(b"font-weight:bold;", b"b") + b"\n"),
    ("a screen that ED 2 erases", b"\x1b[31ma\x1b[m\x1b[2J\x1b[Hb\n", span(RED_TEXT, b"a") + b"\nb\n"),
    ("the alternate screen at the end", b"\x1b[31ma\x1b[m\x1b[?1049h\r\x1b[1mb", span(RED_TEXT, b"a") + b"\n" + span(b"font-weight:bold;", b"b") + b"\n"),
    ("progress", b"\x1b[31m10%\r\x1b[mabc\r\x1b[K\x1b[1m100%\x1b[m done\n", span(b"font-weight:bold;", b"100%") + b" done\n"),
    ("a row written over in part", b"\x1b[31mabcd\r\x1b[mxy\n", b"xy" + span(RED_TEXT, b"cd") + b"\n"),
    ("a line that wrapped", b"\x1b[31m" + b"a" * 99 + b"\x1b[m" + b"b" * 99 + b"\nc\n", span(RED_TEXT, b"a" * 99) + b"b" * 99 + b"\nc\n"),
    ("markup", b"<b>&\"'</b>\n\x1b[31m<\x1b[m&lt;", b"&lt;b&gt;&amp;&quot;&#39;&lt;/b&gt;\n" + span(RED_TEXT, b"&lt;") + b"&amp;lt;\n"),
    ("a background cut by EL", b"\x1b[41mabcd\x1b[m\b\b\x1b[K\n", span(ON_RED, b"ab") + b"\n"),
    ("a background to the end of its row", b"\x1b[41mab\x1b[K\x1b[m\n", span(ON_RED, b"ab") + b"\n"),
    ("a background behind what was passed over", b"\x1b[41m\x1b[2Ka\x1b[4Gb\n", span(ON_RED, b"a  b") + b"\n"),
    ("a place passed over", b"\x1b[31ma\x1b[4Gb\n", span(RED_TEXT, b"a") + b"  " + span(RED_TEXT, b"b") + b"\n"),
    ("a line drawn in colour", b"\x1b(0\x1b[31mqq\x1b(B\x1b[mq\n", span(RED_TEXT, "──".encode()) + b"q\n"),
    ("marks", "\x1b[1me\u0301漢\u0301\x1b[mx\n".encode(), span(b"font-weight:bold;", "e\u0301漢\u0301".encode()) + b"x\n"),
    *SHOWN_LINK_ROWS,
    ("a broken character", b"\x1b[1m\xc3(\n", span(b"font-weight:bold;", b"\xef\xbf\xbd(") + b"\n"),
    ("styles of nothing", b"\x1b[31m\x1b[41m", b""),
]

# of the size that the first line says, or of 1,000 columns and 100 rows
SHOWN_HTML_USUAL_ROWS = [
    (name, given, text.replace(b'"', b"&quot;").replace(b"<", b"&lt;").replace(b">", b"&gt;")) for name, given, text in SHOWN_USUAL_ROWS if b"\x1b[1m" not in given
]

# the same on a page, and more lines than a block has
in_page = lambda rows: [(name, given, in_blocks_begun(html)) for name, given, html in rows]
SHOWN_BLOCK_ROWS = shown_block_rows(lambda text: span(RED_TEXT, text))

# The second span is open where the stream ends.
RED = span(themed(BOTH, b"color", b"#cf222e", b"#ff7b72"), b"h")
BOLD_RED = span(themed(BOTH, b"color", b"#cf222e", b"#ff7b72") + b"font-weight:bold;", b"i")
HTML_CUT = (b"\x1b[31mh\x1b[1mi", [b""] * 6 + [RED] * 5 + [RED + BOLD_RED])

HTML_HOSTILE = STRIP_HOSTILE[:-1]

LINE_LINK = b'<a rel="nofollow noreferrer" href="http://a/" %s="%s">%s</a>'
LINE_ROWS, LIGHT_LINE_ROWS = (
    line_rows(
        lambda text, scheme=scheme: span(themed(scheme, b"color", b"#cf222e", b"#ff7b72"), text),
        lambda text: LINE_LINK % (b"style", b"color:inherit;", text),
    )
    for scheme in (BOTH, LIGHT)
)
BLOCK_ROWS = block_rows(lambda text: span(themed(BOTH, b"color", b"#cf222e", b"#ff7b72"), text), lambda number, line: line)
LINE_BLOCK_ROWS = block_rows(lambda text: span(themed(BOTH, b"color", b"#cf222e", b"#ff7b72"), text), numbered)
url_line = lambda number: numbered(number, address(b"http://a") + b"\n")
LINE_CLASS_ROWS = line_rows(lambda text: classed(b"f1", text), lambda text: LINE_LINK % (b"class", b"ansi-link", text))

NO_LANGUAGE = b"ansi2html: a language is a tag of letters, digits and hyphens, as en or pt-BR, 64 at most (see ansi2html --help)"


PROGRAMS = [
    Program(
        "parselog",
        [
            (words, PARSELOG_USAGE)
            for words in (
                ["other"],
                ["log", "log"],
                ["canon", "canon"],
                ["log", "canon"],
                ["canon", "-"],
                ["log", ""],
                [""],
                ["Log"],
                ["log", "--help"],
                ["--Help"],
                ["--version=1"],
                ["other", "log"],
                ["Log", "-"],
                ["", ""],
                ["log", "log", "log"],
                ["canon", "-", "-"],
                ["canon", "-x"],
                ["other", "--version"],
                ["-"],
                ["stdin"],
                ["./log"],
                [" log"],
                ["log "],
                ["log\n"],
                ["logs"],
                ["cano"],
                ["--"],
                ["--", "log"],
                ["-o"],
            )
        ],
        [
            Mode([], LOG_ROWS, (b"A", lines(b"print U+0041")), [], late=True),
            Mode(["log"], LOG_ROWS, (b"A", lines(b"print U+0041")), LOG_HOSTILE, cut=LOG_CUT, late=True),
            Mode(["canon"], CANON_ROWS, (b"\x1b[mA\n", b"\x1b[0mA\n"), CANON_HOSTILE, stays=True, cut=CANON_CUT, late=True),
        ],
    ),
    Program(
        "ansi2text",
        refused_by("ansi2text", ["--page"], ["--Shown"], ["--shown80x24"], ["--LF"], ["--lf=1"])
        + [([word], wrong_size(b"ansi2text")) for word in ("--shown=", "--shown=1x1", "--shown=80", "--shown=80x1001", "--shown=80x2X4", "--shown==80x24")]
        + [(["--shown", "--shown=0x0"], wrong_size(b"ansi2text"))]
        + [(["--safe", "--shown=1x1"], wrong_size(b"ansi2text"))]
        + [(["--shown", *words], wrong_size(b"ansi2text")) for words in (["1x1"], ["80x1001"], ["9x9", "--shown", "0x24"], ["99999999999999999999x1"])],
        [
            Mode([], STRIP_ROWS, (b"\x1b[1mA\n", b"A\n"), STRIP_HOSTILE, stays=True, cut=STRIP_CUT),
            Mode(["--lf"], LINES_ROWS, (b"\x1b[1mA\r\n", b"A\n"), STRIP_HOSTILE[:-1], cut=LINES_CUT),
            Mode(["--safe"], SAFE_ROWS + HIDDEN_ROWS, (b"\x1b[1mA<\r\n", b"A<\n"), []),
            Mode(["--lf", "--safe"], SAFE_ROWS + HIDDEN_ROWS, (b"\x1b[1mA<\r\n", b"A<\n"), []),
            # (random bytes hide some text)
            Mode(["--no-hidden"], STRIP_ROWS + LEFT_OUT_ROWS, LEFT_OUT_LINE, STRIP_HOSTILE[:-1], stays=True, cut=STRIP_CUT),
            Mode(["--no-hidden", "--lf"], LINES_ROWS, (b"\x1b[8mb\x1b[mA\r\n", b"A\n"), [], cut=LINES_CUT),
            Mode(["--safe", "--no-hidden"], SAFE_ROWS + SAFE_LEFT_OUT_ROWS, (b"\x1b[8mb\x1b[mA<\r\n", b"A<\n"), []),
            Mode(["--shown"], SHOWN_USUAL_ROWS, (b"\x1b[1mA\n", b"A\n"), shown_hostile(100), stays=True, waits=True, room=ROOM_SHOWN),
            Mode(["--shown=80x24"], SHOWN_ROWS, (b"\x1b[1mA\n", b"A\n"), shown_hostile(24), stays=True, waits=True),
            Mode(["--shown=9x9", "--shown", "--lf"], SHOWN_USUAL_ROWS, (b"\x1b[1mA\r\n", b"A\n"), [], stays=True, waits=True),
            Mode(["--shown=80x24", "--lf"], SHOWN_ROWS, (b"\x1b[1mA\r\n", b"A\n"), [], stays=True, waits=True),
            Mode(["--safe", "--shown"], SHOWN_USUAL_ROWS, (b"\x1b[1mA\n", b"A\n"), [], stays=True, waits=True),
            Mode(["--safe", "--shown=9x9"], SAFE_SHOWN_ROWS, (b"\x1b[1mA<\r\n", b"A<\n"), [], waits=True),
            # (an X is taken as an x is)
            Mode(["--shown=9x9", "--shown=80X24"], SHOWN_ROWS[-3:], (b"A\b\n", b"A\n"), [], stays=True, waits=True),
            Mode(["--shown=20x6"], SHOWN_NARROW_ROWS, (b"A\b\n", b"A\n"), [], stays=True, waits=True),
            Mode(["--shown", "20x6"], SHOWN_NARROW_ROWS, (b"A\b\n", b"A\n"), [], stays=True, waits=True),
            Mode(["--shown=9x9", "--shown", "20X6", "--safe", "--lf"], SHOWN_NARROW_ROWS, (b"A\b\n", b"A\n"), [], stays=True, waits=True),
            Mode(["--shown", "20x6", "--shown", "80x24"], SHOWN_ROWS[-3:], (b"A\b\n", b"A\n"), [], stays=True, waits=True),
            Mode(["--no-hidden", "--shown"], SHOWN_USUAL_ROWS + SHOWN_LEFT_OUT_ROWS, LEFT_OUT_LINE, shown_hostile(100), stays=True, waits=True, room=ROOM_SHOWN),
            Mode(["--shown=20x6", "--no-hidden", "--lf"], SHOWN_NARROW_ROWS + SHOWN_LEFT_OUT_ROWS, LEFT_OUT_LINE, [], stays=True, waits=True),
            Mode(["--no-hidden", "--shown", "80x24", "--safe"], SHOWN_LEFT_OUT_ROWS + SAFE_SHOWN_LEFT_OUT_ROWS, LEFT_OUT_LINE, [], waits=True),
        ],
        options=["--safe", "--lf", "--no-hidden", "--shown", "--shown=COLUMNSxROWS", "--output=FILE"],
        files=[([], []), (["--lf"], ["--lf"]), (["--no-hidden"], ["--no-hidden"]), (["--safe"], ["--safe"]), (["--shown"], ["--shown"])],
    ),
    Program(
        "ansi2html",
        refused_by(
            "ansi2html",
            *(["--titles=x"], ["--Page"], ["--page="], ["--light=1"], ["--class"]),
        )
        + [unknown("ansi2html", ["--title", "x", "--titles", "y"], '"--titles"')]
        + [([*before, word], wants("ansi2html", word)) for word in ("--title", "--css", "--lang") for before in ([], ["--page"], [word, word])]
        + [(words, NO_LANGUAGE) for words in (["--lang="], ["--lang", "e n"], ["--lang=en", "--lang=\"x"], ["--lang=" + 65 * "a"])]
        + [(words, NO_LANGUAGE) for words in (["--lang=\xe9"], ["--page", "--lang", "en_GB"])]
        + [(["--page", word], wrong_size(b"ansi2html")) for word in ("--shown=", "--shown=1x1", "--shown=1001x24")]
        + [(["--stylesheet", "--shown=0x0"], wrong_size(b"ansi2html")), (["--shown", "1001x24", "--page"], wrong_size(b"ansi2html"))]
        + [(words, b"ansi2html: lines are those of one file, or of each page of a folder (see ansi2html --help)") for words in (["--lines", "a", "b"], ["-", "--lines", "--page", "-"])]
        + [
            (words, b"ansi2html: --fragment is not taken with --title, --css, --lang or --scroll (see ansi2html --help)")
            for words in (["--fragment", "--title=x"], ["--css", "a", "--fragment"], ["--page", "--lang=de", "--fragment"], ["--fragment", "--scroll"])
        ]
        + [(words, b"ansi2html: --stylesheet reads no file (see ansi2html --help)") for words in (["--stylesheet", "log"], ["-", "--stylesheet"])],
        [
            Mode(words, html_rows(scheme) if scheme else CLASS_ROWS, (b"\x1b[mA\n", b"A\n"), hostile, head, tail, cut=cut, has_blocks=head != b"")
            for words, scheme, hostile, head, tail, cut in (
                (["--fragment"], BOTH, HTML_HOSTILE, b"", b"", HTML_CUT),
                ([], BOTH, HTML_HOSTILE, PAGE_HEAD, PAGE_TAIL, None),
                (["--fragment", "page"], BOTH, [], PAGE_HEAD, PAGE_TAIL, None),
                (["--page", "--fragment"], BOTH, [], b"", b"", None),
                (["--page"], BOTH, [], PAGE_HEAD, PAGE_TAIL, HTML_CUT),
                (["--title=" + TITLE, "--page"], BOTH, [], TITLED_HEAD, PAGE_TAIL, None),
                (["--title", "--page", "--title", TITLE], BOTH, [], TITLED_HEAD, PAGE_TAIL, None),
                (["--lang", "en", "--title=" + TITLE], BOTH, [], TITLED_HEAD, PAGE_TAIL, None),
                (["--lang=de", "--lang=pt-BR"], BOTH, [], PAGE_HEAD.replace(b'"en"', b'"pt-BR"'), PAGE_TAIL, None),
                (["--css=a.css", "--css", ADDRESS], BOTH, [], LINKED_HEAD, PAGE_TAIL, None),
                (["--css=" + ADDRESS, "--classes"], None, [], LINKED_HEAD, PAGE_TAIL, None),
                (["--light", "--css", ADDRESS], LIGHT, [], LINKED_HEAD.replace(b"light dark", b"light"), PAGE_TAIL, None),
                (["--css=" + ADDRESS, "--page", "--dark"], DARK, [], LINKED_HEAD.replace(b"light dark", b"dark"), PAGE_TAIL, None),
                (["--title=first", "--fragment", "--page", "--title=" + TITLE], BOTH, [], TITLED_HEAD, PAGE_TAIL, None),
                (["--dark", "--fragment", "--light"], LIGHT, [], b"", b"", None),
                (["--dark", "--light"], LIGHT, [], LIGHT_HEAD, PAGE_TAIL, None),
                (["--light", "--dark", "--title=" + TITLE], DARK, [], DARK_TITLED_HEAD, PAGE_TAIL, None),
                (["--fragment", "--classes", "--dark"], None, HTML_HOSTILE, b"", b"", None),
            )
        ]
        + [
            Mode(words, rows, (b"\x1b[mA<\n", lambda number: numbered(number, b"A&lt;\n")), [], head, tail, has_blocks=head != b"")
            for words, rows, head, tail in (
                (["--lines", "--fragment"], LINE_ROWS, b"", b""),
                (["--fragment", "--classes", "--lines"], LINE_CLASS_ROWS, b"", b""),
                (["--lines", "--lines"], LINE_ROWS, LINED_HEAD, PAGE_TAIL),
                (["--lines", "--classes", "--css=" + ADDRESS], LINE_CLASS_ROWS, LINKED_HEAD, PAGE_TAIL),
                (["--light", "--lines", "--page"], LINE_ROWS[:5], LIGHT_LINED_HEAD, PAGE_TAIL),
                (["--page", "--scroll", "--dark", "--lines"], LINE_ROWS[:5], DARK_LINED_HEAD, PAGE_TAIL),
            )
        ]
        + [
            Mode(["--urls", "--fragment"], html_rows(BOTH) + URL_ROWS, (b"\x1b[mhttp://a\n", address(b"http://a") + b"\n"), HTML_HOSTILE, cut=URL_CUT),
            Mode(["--urls"], URL_ROWS[:5], (b"\x1b[mhttp://a\n", address(b"http://a") + b"\n"), [], PAGE_HEAD, PAGE_TAIL, has_blocks=True),
            *(
                Mode(words, rows, (b"http://a\n", url_line), [], head, tail, has_blocks=head != b"")
                for words, rows, head, tail in (
                    (["--fragment", "--lines", "--urls"], LINE_ROWS, b"", b""),
                    (["--fragment", "--urls", "--lines", "--light"], LIGHT_LINE_ROWS, b"", b""),
                    (["--light", "--lines", "--urls"], LIGHT_LINE_ROWS, LIGHT_LINED_HEAD, PAGE_TAIL),
                )
            ),
            Mode(["--urls", "--fragment", "--classes"], CLASS_ROWS, (b"A\n", b"A\n"), []),
        ]
        + [Mode(["--no-hidden", "--fragment", *words], LEFT_OUT_ROWS[:4], LEFT_OUT_LINE, []) for words in ([], ["--urls", "--classes"])]
        + [Mode(["--no-hidden", *words], LEFT_OUT_ROWS[:4], LEFT_OUT_LINE, [], PAGE_HEAD, PAGE_TAIL, has_blocks=True) for words in ([], ["--urls"])]
        + [Mode(["--no-hidden", "--fragment", "--lines", *it], [("a line", LEFT_OUT_LINE[0], numbered(1, b"A\n"))], (LEFT_OUT_LINE[0], lambda n: numbered(n, b"A\n")), []) for it in ([], ["--urls"])]
        + [
            Mode(words, rows, (b"\x1b[mA<\n", b"A&lt;\n"), [], head, PAGE_TAIL, has_blocks=True)
            for words, rows, head in (
                (["--scroll", "--page"], html_rows(BOTH)[:5], SCROLLED_HEAD),
                (["--scroll", "--css=" + ADDRESS], html_rows(BOTH)[:5], LINKED_SCROLLED_HEAD),
                (["--page"], BLOCK_ROWS, PAGE_HEAD),
            )
        ]
        + [Mode(["--lines"], LINE_BLOCK_ROWS, (b"\x1b[mA<\n", lambda number: numbered(number, b"A&lt;\n")), [], LINED_HEAD, PAGE_TAIL, has_blocks=True)]
        + [
            Mode(words, rows, (b"\x1b[mA<\n", b"A&lt;\n"), [], head, tail, waits=True, has_blocks=head != b"")
            for words, rows, head, tail in (
                (["--shown", "--fragment"], SHOWN_HTML_ROWS + SHOWN_HTML_USUAL_ROWS, b"", b""),
                (["--shown"], in_page(SHOWN_HTML_USUAL_ROWS) + SHOWN_BLOCK_ROWS, PAGE_HEAD, PAGE_TAIL),
                (["--shown=9x9", "--page", "--shown=80x24"], in_page(SHOWN_HTML_ROWS), PAGE_HEAD, PAGE_TAIL),
                (["--shown", "9x9", "--page", "--shown", "80x24"], in_page(SHOWN_HTML_ROWS), PAGE_HEAD, PAGE_TAIL),
                (["--shown", "--fragment", "--classes"], [("a class", b"\x1b[1mx\n", classed(b"bold") + b"\n")], b"", b""),
                (["--shown", "--title=" + TITLE], in_page(SHOWN_HTML_ROWS[:1]), TITLED_HEAD, PAGE_TAIL),
                (["--fragment", "--light", "--shown", "--dark"], [("red", b"\x1b[31mx\n", span(b"color:#ff7b72;", b"x") + b"\n")], b"", b""),
                (["--light", "--shown"], [("red", b"\x1b[31mx\n", span(b"color:#cf222e;", b"x") + b"\n")], LIGHT_HEAD, PAGE_TAIL),
            )
        ]
        + FURTHER_MODES,
        options=[
            *("--page", "--fragment", "--title=TEXT", "--css=ADDRESS", "--lang=TAG", "--light", "--dark", "--classes", "--lines", "--scroll", "--urls", "--no-hidden"),
            "--stylesheet",
            *("--shown", "--shown=COLUMNSxROWS", "--output=FILE"),
        ],
        files=[(["--fragment"], ["--fragment"]), ([], ["--fragment"]), (["--shown"], ["--shown", "--fragment"])],
        fragments=[["--fragment"], ["--fragment", "--classes"]],
        page=["--page"],
        written=["--stylesheet"],
    ),
    # (what its screens are tests/screen_twin tries)
    Program(
        "ansi2screen",
        refused_by("ansi2screen", ["--draw=x"], ["--shown"])
        + [unknown("ansi2screen", ["--size", "9x9", "--sizes"], '"--sizes"')]
        + [([*before, "--size"], wants("ansi2screen", "--size")) for before in ([], ["a"], ["--size", "--size"])]
        + [(["--size", word], wrong_size(b"ansi2screen")) for word in ("--draw", "1x1", "")]
        + [([word], wrong_size(b"ansi2screen")) for word in ("--size=", "--size=1x1", "--size=80")]
        + [(words, b"ansi2screen: a screen is that of one file (see ansi2screen --help)") for words in (["a", "b"], ["-", "-"], ["a", "--", "-b"])]
        + [
            (words, b"ansi2screen: --draw and --updates are not taken together (see ansi2screen --help)")
            for words in (["--draw", "--updates"], ["--updates", "a", "--draw"])
        ],
        [],
        options=["--size=COLUMNSxROWS", "--draw", "--updates", "--output=FILE"],
        files=[([], [])],
        # (where no size is given the first line may say it)
        following=[(["--size=80X24", "--updates"], b""), (["--updates"], b"a\n")],
    ),
    # (what its pictures are tests/pictures tries)
    Program(
        "ansi2svg",
        refused_by("ansi2svg", ["--draw"], ["--window=x"], ["--shown=9x2"])
        + [([*before, it], wants("ansi2svg", it)) for it in ("--size", "--title", "--font") for before in ([], ["a"])]
        + [(["--size", word], wrong_size(b"ansi2svg")) for word in ("--dark", "1x1", "")]
        + [(words, b"ansi2svg: a picture is that of one file (see ansi2svg --help)") for words in (["a", "b"], ["-", "-"], ["a", "--", "-b"])],
        [],
        options=["--size=COLUMNSxROWS", "--shown", "--light", "--dark", "--cursor", "--window", "--title=TEXT", "--font=FONTS", "--output=FILE"],
        files=[([], [])],
    ),
]
