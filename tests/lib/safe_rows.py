"""What ansi2text --safe writes of hostile texts, and what with --shown=9x9, worked by hand from the definition of safe text: rows for
tests/lib/expected.py.

Each row is its name, what is read and what is written; a str stands for its UTF-8.
"""

from lib.log_rows import BEGUN_ROWS, READ_ROWS


def rows(*them):
    encoded = lambda it: it.encode("utf-8") if isinstance(it, str) else it
    return [(name, encoded(given), encoded(text)) for name, given, text in them]


SAFE_ROWS = rows(
    ("plain text", "a<b>\t~\n", "a<b>\t~\n"),
    # ends of lines
    ("CR LF", b"a\r\nb\r\n", b"a\nb\n"),
    ("CR, a sequence and LF", b"a\r\x1b[K\n", b"a\n"),
    ("a CR that hides what stood before", b"curl evil | sh\rls\n", b"curl evil | sh<U+000D>ls\n"),
    ("a CR at the end", b"a\r", b"a<U+000D>"),
    ("CR CR LF", b"a\r\r\n", b"a<U+000D>\n"),
    ("VT and FF", b"a\x0bb\x0cc", b"a\nb\nc"),
    ("CR before VT", b"a\r\x0bb", b"a<U+000D>\nb"),
    # controls
    ("NUL, BEL, backspace and SUB", b"a\0b\x07c\x08d\x1ae", b"a<U+0000>b<U+0007>c<U+0008>d<U+001A>e"),
    ("DEL", b"rm\x7f\x7fls", b"rm<U+007F><U+007F>ls"),
    ("CSI and OSC as characters", "\u009b8mx\u009d0;t", "<U+009B>8mx<U+009D>0;t"),
    ("a C1 control as a byte, which UTF-8 has not", b"a\x84b\x85", "a\ufffdb\ufffd"),
    ("sequences, a title and a device control string", b"\x1b[7ma\x1b]0;t\x07\x1bPq#\x1b\\b", b"ab"),
    ("a broken character", b"a\xe2\x80(", "a\ufffd("),
    # the order of text
    ("an override", "if (a\u202e } \u2066// b\u2069", "if (a<U+202E> } <U+2066>// b<U+2069>"),
    ("embeddings and marks", "\u202aa\u202bb\u202cc\u202dd\u200ee\u200ff\u061c", "<U+202A>a<U+202B>b<U+202C>c<U+202D>d<U+200E>e<U+200F>f<U+061C>"),
    ("isolates", "\u2067a\u2068b\u2069", "<U+2067>a<U+2068>b<U+2069>"),
    ("Hebrew without controls", "\u05d0\u05d1 a", "\u05d0\u05d1 a"),
    # what shows nothing
    ("tags", "ok\U000e0072\U000e006d\U000e007f\U000e0001", "ok<U+E0072><U+E006D><U+E007F><U+E0001>"),
    ("a flag of tags", "\U0001f3f4\U000e0067\U000e0062\U000e007f", "\U0001f3f4<U+E0067><U+E0062><U+E007F>"),
    ("line and paragraph separator", "a\u2028b\u2029c", "a<U+2028>b<U+2029>c"),
    ("interlinear annotation", "\ufff9a\ufffab\ufffb", "<U+FFF9>a<U+FFFA>b<U+FFFB>"),
    ("unassigned ones that show nothing", "\ufff0\u2065\U000e0002\U000e0fff", "<U+FFF0><U+2065><U+E0002><U+E0FFF>"),
    ("a byte order mark", "\ufeffa\ufeff", "<U+FEFF>a<U+FEFF>"),
    ("word joiner and invisible operators", "a\u2060b\u2061c\u2064", "a<U+2060>b<U+2061>c<U+2064>"),
    ("a soft hyphen", "pass\u00adword", "pass<U+00AD>word"),
    ("Hangul fillers", "a\u115f\u1160\u3164\uffa0b", "a<U+115F><U+1160><U+3164><U+FFA0>b"),
    ("a grapheme joiner, and a mark that shows", "e\u034f\u0301", "e<U+034F>\u0301"),
    ("controls of music and shorthand", "\U0001d173\U0001bca0", "<U+1D173><U+1BCA0>"),
    ("blanks, private use and what no font has", "\u00a0\u2003\u3000\u2800\ue0b0\U0010fffd\u0378", "\u00a0\u2003\u3000\u2800\ue0b0\U0010fffd\u0378"),
    # joiners
    ("joiners among letters", "a\u200bb\u200cc\u200dd", "a<U+200B>b<U+200C>c<U+200D>d"),
    ("joiners at the start and the end", "\u200da\u200d", "<U+200D>a<U+200D>"),
    ("a family", "\U0001f468\u200d\U0001f469\u200d\U0001f467", "\U0001f468\u200d\U0001f469\u200d\U0001f467"),
    ("a heart on fire", "\u2764\ufe0f\u200d\U0001f525", "\u2764\ufe0f\u200d\U0001f525"),
    ("a skin tone and a joiner", "\U0001f469\U0001f3fd\u200d\U0001f680", "\U0001f469\U0001f3fd\u200d\U0001f680"),
    ("two joiners between emoji", "\U0001f468\u200d\u200d\U0001f469", "\U0001f468<U+200D><U+200D>\U0001f469"),
    ("a joiner behind an emoji alone", "\U0001f468\u200dx", "\U0001f468<U+200D>x"),
    ("a joiner, a sequence, an emoji", b"\xf0\x9f\x91\xa8\xe2\x80\x8d\x1b[m\xf0\x9f\x91\xa9", "\U0001f468\u200d\U0001f469"),
    ("selectors", "\u2764\ufe0e\u2764\ufe0fa\ufe0f\ufe00", "\u2764\ufe0e\u2764\ufe0fa<U+FE0F><U+FE00>"),
    ("a selector behind a selector", "\u2764\ufe0f\ufe0f\u200d\U0001f525", "\u2764\ufe0f<U+FE0F><U+200D>\U0001f525"),
    ("bytes in selectors", "\U0001f600\U000e0101\U000e01ef", "\U0001f600<U+E0101><U+E01EF>"),
    ("a keycap, and a digit with a selector", "1\ufe0f\u20e32\ufe0f3", "1\ufe0f\u20e32<U+FE0F>3"),
    ("Persian", "\u0645\u06cc\u200c\u0634\u0648\u062f", "\u0645\u06cc\u200c\u0634\u0648\u062f"),
    ("a non-joiner behind a letter that joins none", "\u0627\u200c\u0628", "\u0627<U+200C>\u0628"),
    ("Devanagari", "\u0915\u094d\u200d\u0937\u094d\u200c\u0915", "\u0915\u094d\u200d\u0937\u094d\u200c\u0915"),
    ("two joiners behind a virama", "\u094d\u200d\u200d", "\u094d\u200d<U+200D>"),
    ("Thai", "\u0e01\u200b\u0e02\u200ba", "\u0e01\u200b\u0e02<U+200B>a"),
    ("Mongolian selectors", "\u1820\u180b\u180e", "\u1820<U+180B><U+180E>"),
    # what looks as a character that is written visibly
    ("a forged mark", "<U+202E>", "<U+003C>U+202E>"),
    ("a mark that is no character", "<U+>", "<U+003C>U+>"),
    ("a forged mark, in pieces", b"<\x1b[mU\x1b[m+0041>", b"<U+003C>U+0041>"),
    ("less signs before a mark", "<<U+<U<U+", "<<U+003C>U+<U<U+003C>U+"),
    ("less signs at the end", "<UL><U", "<UL><U"),
    ("a less sign before one that shows nothing", "<\u200bU+", "<<U+200B>U+"),
    ("a less sign before a line feed", b"<\r\nU+", b"<\nU+"),
    ("a less sign before a joiner that stays", "\u0915\u094d\u200d<U\u094d\u200d", "\u0915\u094d\u200d<U\u094d\u200d"),
    *READ_ROWS,
    *BEGUN_ROWS,
)

# Hidden text, as Select Graphic Rendition hides it, or in the colour of its ground, which the programs mark.
HIDDEN_ROWS = rows(
    ("hidden text, until 28", b"user \x1b[8msecret\x1b[28m ok\n", b"user <U+hidden>secret<U+shown> ok\n"),
    ("hidden text, until 0", b"\x1b[8ma\x1b[0mb", b"<U+hidden>a<U+shown>b"),
    ("hidden text, until a sequence with no code", b"\x1b[8ma\x1b[mb", b"<U+hidden>a<U+shown>b"),
    ("hidden text at the end", b"a\x1b[8mb", b"a<U+hidden>b<U+shown>"),
    ("hidden text that ends with a line", b"\x1b[8ma\n\x1b[mb\n", b"<U+hidden>a<U+shown>\nb\n"),
    ("hidden text of two lines", b"\x1b[8ma\r\nb\r\n\x1b[m", b"<U+hidden>a<U+shown>\n<U+hidden>b<U+shown>\n"),
    ("hidden text with a tab and a control", b"\x1b[8ma\tb\x07\x1b[m", b"<U+hidden>a<U+shown>\t<U+hidden>b<U+shown><U+0007>"),
    ("hidden among other codes", b"\x1b[1;8;31ma\x1b[1;28;31mb", b"<U+hidden>a<U+shown>b"),
    ("hidden and shown at once", b"\x1b[8;28ma\x1b[28;8mb", b"a<U+hidden>b<U+shown>"),
    ("another colour of hidden text", b"\x1b[8ma\x1b[31mb\x1b[m", b"<U+hidden>ab<U+shown>"),
    ("hidden text, a title and a link", b"\x1b[8ma\x1b]0;t\x07b\x1b]8;;https://e.org\x07c\x1b[m", b"<U+hidden>abc<U+shown>"),
    ("nothing that is hidden", b"a\x1b[8m\x1b[28mb\x1b[8m\n\x1b[m", b"ab\n"),
    ("hidden, shown and hidden, with no text between", b"\x1b[8ma\x1b[28m\x1b[8mb\x1b[m", b"<U+hidden>ab<U+shown>"),
    ("8 as a part of a colour", b"\x1b[38;5;8ma\x1b[48;2;8;8;8mb\x1b[38:5:8mc\x1b[58;5;8md", b"abcd"),
    ("8 in another sequence", b"\x1b[8Ja\x1b[?8mb\x1b[8 mc\x1b[>8md", b"abcd"),
    ("28 in another sequence", b"\x1b[8ma\x1b[?28mb\x1b[28lc", b"<U+hidden>abc<U+shown>"),
    ("a sequence that is cancelled", b"\x1b[8\x18ma", b"<U+0018>ma"),
    ("no reset by the terminal's", b"\x1b[8ma\x1bcb\x1b[!pc", b"<U+hidden>abc<U+shown>"),
    ("a character of two bytes", b"\x1b[8m\xc3\xa9\x1b[m\xc3\xa9", "<U+hidden>\u00e9<U+shown>\u00e9"),
    ("a broken character", b"\x1b[8m\xe2\x82\x1b[ma", "<U+hidden>\ufffd<U+shown>a"),
    ("hidden blanks", b"a\x1b[8m  \x1b[mb", b"a<U+hidden>  <U+shown>b"),
    ("what shows nothing in hidden text", "\x1b[8ma\u202e\x1b[mb", "<U+hidden>a<U+202E><U+shown>b"),
    # text in the colour of its ground
    ("black on black", b"\x1b[30;40mx", b"<U+hidden>x<U+shown>"),
    ("white on white, by red, green and blue", b"\x1b[38;2;255;255;255;48;2;255;255;255mx", b"<U+hidden>x<U+shown>"),
    ("red on red, until 39", b"\x1b[31;41mx\x1b[39my", b"<U+hidden>x<U+shown>y"),
    ("red on red, until 49", b"\x1b[31;41mx\x1b[49my", b"<U+hidden>x<U+shown>y"),
    ("red on red, until 0", b"\x1b[31;41mx\x1b[0my", b"<U+hidden>x<U+shown>y"),
    ("red on red, until another ground", b"\x1b[31;41mx\x1b[42my", b"<U+hidden>x<U+shown>y"),
    ("a ground that comes later", b"\x1b[31mx\x1b[41my\x1b[m", b"x<U+hidden>y<U+shown>"),
    ("red of the cube, and by red, green and blue", b"\x1b[38;5;196;48;2;255;0;0mx", b"<U+hidden>x<U+shown>"),
    ("red of the sixteen, by red, green and blue", b"\x1b[31;48;2;205;0;0mx\x1b[91my\x1b[48:2::255:0:0mz", b"<U+hidden>x<U+shown>y<U+hidden>z<U+shown>"),
    ("each of the sixteen by its number", b"".join(b"\x1b[%d;48;5;%dmx" % (30 + n if n < 8 else 82 + n, n) for n in range(16)), b"<U+hidden>%s<U+shown>" % (16 * b"x")),
    ("a grey by its number, and by red, green and blue", b"\x1b[38;5;232;48;2;8;8;8mx\x1b[38;5;255;48;2;238;238;238my", b"<U+hidden>xy<U+shown>"),
    ("steps of the cube", b"\x1b[38;5;17;48;2;0;0;95mx\x1b[38;5;67;48;2;95;135;175my", b"<U+hidden>xy<U+shown>"),
    ("black of the cube on black", b"\x1b[38;5;16;40mx", b"<U+hidden>x<U+shown>"),
    ("white of the cube on bright white", b"\x1b[38;5;231;107mx", b"<U+hidden>x<U+shown>"),
    ("black on green", b"\x1b[30;42mx", b"x"),
    ("a colour and the same in bright", b"\x1b[31;101mx\x1b[90;40my", b"xy"),
    ("bold text is not bright", b"\x1b[1;31;101mx\x1b[41my", b"x<U+hidden>y<U+shown>"),
    ("near colours", b"\x1b[38;2;0;0;1;40mx", b"x"),
    ("the terminal's own colours", b"\x1b[39;49mx\x1b[30my\x1b[39;40mz\x1b[7mz", b"xyzz"),
    ("a colour on itself in reverse video", b"\x1b[7;34;44mx\x1b[27my\x1b[mz", b"<U+hidden>xy<U+shown>z"),
    ("a colour on itself that SGR 8 hides too", b"\x1b[8;34;44mx\x1b[28my\x1b[8;39mz\x1b[28m!", b"<U+hidden>xyz<U+shown>!"),
    ("lines of a colour on itself", b"\x1b[30;40ma\nb\tc\x1b[m\n", b"<U+hidden>a<U+shown>\n<U+hidden>b<U+shown>\t<U+hidden>c<U+shown>\n"),
    ("blanks of a ground alone", b"\x1b[41m  \x1b[m", b"  "),
    # nothing of a stream looks as a mark, nor does what stands beside one
    ("forged marks", b"<U+hidden>a<U+shown>", b"<U+003C>U+hidden>a<U+003C>U+shown>"),
    ("forged marks in hidden text", b"\x1b[8ma<U+shown>b\x1b[m", b"<U+hidden>a<U+003C>U+shown>b<U+shown>"),
    ("a less sign before a mark that hides", b"<\x1b[8mU+\x1b[m", b"<<U+hidden>U+<U+shown>"),
    ("a less sign before a mark that shows", b"\x1b[8m<U\x1b[m+", b"<U+hidden><U<U+shown>+"),
    ("a CR before a mark", b"a\r\x1b[8mb", b"a<U+000D><U+hidden>b<U+shown>"),
    ("a joiner before a mark", "\U0001f468\u200d\x1b[8m\U0001f469", "\U0001f468<U+200D><U+hidden>\U0001f469<U+shown>"),
    ("a joiner behind a mark", "\U0001f468\x1b[8m\u200d\U0001f469", "\U0001f468<U+hidden><U+200D>\U0001f469<U+shown>"),
)

# On a screen of 9 columns and 9 rows. (A character of no column stands with the one before it.)
SAFE_SHOWN_ROWS = rows(
    ("no bytes", b"", b""),
    ("a bar that is drawn again", b" 10%\r 50%\r100%\r\n", b"100%\n"),
    ("an override", "if (a\u202e }\r\n", "if (a<U+202E> }\n"),
    ("a line that is not ended", "a\u2066", "a<U+2066>\n"),
    ("rows that scroll off", 12 * "a\u202eb\r\n", 12 * "a<U+202E>b\n"),
    ("a forged mark", b"<U+202E>\r\n", b"<U+003C>U+202E>\n"),
    ("a forged mark that wraps", b"12345678<U+0041>\r\n", b"12345678<U+003C>U+0041>\n"),
    ("a less sign at the end of a line", b"<\r\nU+\r\n", b"<\nU+\n"),
    ("less signs at the end", b"<\r\n<U", b"<\n<U\n"),
    ("a family", "\U0001f468\u200d\U0001f469\r\n", "\U0001f468\u200d\U0001f469\n"),
    ("a joiner among letters", "a\u200db\r\n", "a<U+200D>b\n"),
    ("controls show nothing on a screen", b"a\x07\x7f\xc2\x9bb\r\n", b"ab\n"),
    # hidden text
    ("hidden text", b"a\x1b[8mbc\x1b[28md\r\n", b"a<U+hidden>bc<U+shown>d\n"),
    ("hidden text that is written over", b"\x1b[8mabc\x1b[m\rxy\r\n", b"xy<U+hidden>c<U+shown>\n"),
    ("hidden text that is erased", b"a\x1b[8mbc\x1b[m\x1b[3D\x1b[K\r\nd\r\n", b"\nd\n"),
    ("hidden text to the end of a row", b"\x1b[8mab\r\ncd\x1b[m\r\n", b"<U+hidden>ab<U+shown>\n<U+hidden>cd<U+shown>\n"),
    ("hidden text that wraps", b"\x1b[8m12345678abc\x1b[md\r\n", b"<U+hidden>12345678a<U+shown><U+hidden>bc<U+shown>d\n"),
    ("a wide character that is hidden", "\x1b[8m\u5b57\x1b[ma\r\n", "<U+hidden>\u5b57<U+shown>a\n"),
    ("a place between where nothing was printed", b"\x1b[8ma\x1b[Cb\x1b[m\r\n", b"<U+hidden>a<U+shown> <U+hidden>b<U+shown>\n"),
    ("a colour on itself", b"\x1b[30;40mab\x1b[42mc\x1b[m\r\n", b"<U+hidden>ab<U+shown>c\n"),
    ("forged marks on a screen", b"<U+shown>\r\n", b"<U+003C>U+shown>\n"),
)

# What --no-hidden writes, and of what --safe would mark with it.
LEFT_OUT_ROWS = rows(
    ("a note of Jenkins", b"\x1b[8mha:////4AbC+/w==\x1b[0mStarted by user\n", b"Started by user\n"),
    ("hidden text, until 28", b"a\x1b[8mb\x1b[28mc\n", b"ac\n"),
    ("hidden text, until a sequence with no code", b"a\x1b[1;8mb\x1b[31mc\x1b[md", b"ad"),
    ("hidden text at the end", b"a\x1b[8mb", b"a"),
    ("lines of hidden text", b"a\x1b[8mb\r\nc\td\n\x1b[me\n", b"a\r\n\t\ne\n"),
    ("hidden and shown at once", b"\x1b[8;28ma\x1b[28;8mb", b"a"),
    ("8 in another sequence", b"\x1b[8Ja\x1b[?8mb\x1b[38;5;8mc", b"abc"),
    ("a hidden character of two bytes, and a broken one", b"\x1b[8m\xc3\xa9\xe2\x82\x1b[m\xc3\xa9", b"\xc3\xa9"),
    ("a hidden link and a title", b"\x1b[8ma\x1b]8;;https://e.org\x07b\x1b]0;t\x07\x1b[mc", b"c"),
    ("a colour on itself", b"\x1b[30;40ma\x1b[m", b"a"),
)

SAFE_LEFT_OUT_ROWS = rows(
    ("hidden text", b"a\x1b[8mb\x1b[28mc\x07", b"ac<U+0007>"),
    ("a colour on itself", b"\x1b[8ma\x1b[28;30;40mb\x1b[mc", b"<U+hidden>b<U+shown>c"),
    ("a less sign before hidden text", b"<\x1b[8mb\x1b[mU+", b"<U+003C>U+"),
)

# The same of what a screen showed, on any size of 20x6 or more.
SHOWN_LEFT_OUT_ROWS = rows(
    ("no bytes", b"", b""),
    ("a bar that is drawn again", b" 10%\r\x1b[8m 50%\x1b[m\r100%\n", b"100%\n"),
    ("a note of Jenkins", b"\x1b[8mha:////4AbC+/w==\x1b[0mStarted by user\n", b"Started by user\n"),
    ("hidden text", b"a\x1b[8mbc\x1b[28md\n", b"ad\n"),
    ("hidden text at the end", b"a\x1b[8mb", b"a\n"),
    ("lines that are hidden", b"a\n\x1b[8mb\nc\x1b[m\nd\n", b"a\n\n\nd\n"),
    ("lines that are hidden and scroll off", b"a\n\x1b[8mb\n\x1b[m" * 60 + b"c", b"a\n\n" * 60 + b"c\n"),
    ("hidden text that wraps", b"a\x1b[8m" + b"b" * 99 + b"\x1b[mc\n", b"ac\n"),
    ("hidden text that is written over", b"\x1b[8mabc\x1b[m\rxy\n", b"xy\n"),
    ("text over which hidden text is written", b"abc\r\x1b[8mxy\x1b[m\n", b"c\n"),
    ("hidden text that is printed again", b"\x1b[8mabc\x1b[m\rabc\n", b"abc\n"),
    ("hidden text that is erased", b"\x1b[8mabc\x1b[m\r\x1b[Kd\n", b"d\n"),
    ("a wide character that is hidden", "\x1b[8m\u5b57\u0301\x1b[ma\n", "a\n"),
    ("a mark on what shows, in hidden style", "a\x1b[8m\u0301\x1b[mb\n", "a\u0301b\n"),
    ("a place passed over between hidden letters", b"\x1b[8ma\x1b[Cb\x1b[m.\n", b" .\n"),
    ("hidden text on the alternate screen", b"a\n\x1b[?1049h\x1b[H\x1b[8mb\x1b[mc", b"a\nc\n"),
)

# And as safe text: what has the colour of its ground is marked.
SAFE_SHOWN_LEFT_OUT_ROWS = rows(
    ("hidden text", b"a\x1b[8mbc\x1b[28md\x07\n", b"ad\n"),
    ("an override", "a\u202e\x1b[8mb\u202e\x1b[mc\n", "a<U+202E>c\n"),
    ("a colour on itself", b"\x1b[8ma\x1b[28;30;40mb\x1b[mc\n", b"<U+hidden>b<U+shown>c\n"),
    ("a less sign before hidden text", b"<\x1b[8mb\x1b[mU+\n", b"<U+003C>U+\n"),
    ("forged marks", b"<U+shown>\n", b"<U+003C>U+shown>\n"),
)
