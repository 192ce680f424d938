"""What a reader of logs sees of bytes that belong to no character, and of strings that BEL ends: rows for tests/lib/expected.py, worked by
hand. They are the same as text, as safe text and as what a screen showed, and where they select no style as HTML.
And what --lf makes of carriage returns."""

REPLACED = "\ufffd".encode()

# The raw log of a well-known CI (buildkite.com/docs): before each line a stamp in APC, which BEL ends.
STAMP = b"\x1b_bk;t=17000000000%02d\x07"
STAMPED = b"".join(STAMP % at + line + b"\n" for at, line in enumerate((b"~~~ Running make", b"$ make", b"\x1b[32mok\x1b[0m", b"done")))

READ_ROWS = [
    ("Latin-1", b"M\xfcller\n", b"M" + REPLACED + b"ller\n"),
    ("a pound sign of Latin-1", b"\xa3 5\n", REPLACED + b" 5\n"),
    ("each byte of 80 to FF alone", b"x".join(bytes([it]) for it in range(0x80, 0x100)) + b"\n", b"x".join([REPLACED] * 128) + b"\n"),
    ("Windows-1252", b"\x93quoted\x94 \x80 5\n", REPLACED + b"quoted" + REPLACED + b" " + REPLACED + b" 5\n"),
    ("a surrogate", b"a\xed\xa0\x80b\n", b"a" + 3 * REPLACED + b"b\n"),
    ("a byte of Latin-1 among characters", "é".encode() + b"\xe4" + "é€😀".encode() + b"\n", "é\ufffdé€😀\n".encode()),
    ("a character that a byte of none breaks", b"\xe2\x82\xff\xf0\x9f\xa0\xc0\n", REPLACED * 4 + b"\n"),
    ("bytes of none behind sequences", b"\x1b[1m\xe4\x1b[m\xa0\x1b(B\xff\n", REPLACED * 3 + b"\n"),
    ("bytes of none in sequences and strings", b"\x1b]0;\xe4\xff\x07a\x1b_\xa0\xff\x07b\x1bP1q\xc0\x9c\x1b\\c\x1b[\xa01md\x1b\xff7e\n", b"abcde\n"),
    ("four lines with stamps", STAMPED, b"~~~ Running make\n$ make\nok\ndone\n"),
    ("BEL that ends PM and SOS", b"\x1b^a\x07b\x1bXc\x07d\n", b"bd\n"),
    ("ST after it, and the other ends", b"\x1b_a\x07b\x1b\\c\x1b_d\x1b\\e\x1b_f\x1b7g\n", b"bceg\n"),
    ("BEL in a device control string", b"\x1bPq\x07a\x1b\\b\n", b"b\n"),
    ("a check mark in APC", "x\x1b_G\u2713 left\x1b\\y\n".encode(), b"xy\n"),
    ("in PM, SOS and a hooked string", "a\x1b^\u2713b\x07c\x1bX\u2713d\x07e\x1bPq\u2713f\x1b\\g\n".encode(), b"aceg\n"),
    ("in strings that are ignored", "a\x1bP1<q\u2713b\x1b\\c\x1bP \u2713qd\u2713\x1b\\e\n".encode(), b"ace\n"),
    ("9C alone in strings", b"a\x1b_b\x9cc\x1b\\d\x1bPqe\x9cf\x1b\\g\x1b]0;h\x9ci\x07j\n", b"adgj\n"),
]

# at the end of a stream
BEGUN_ROWS = [
    ("Latin-1 at the end", b"caf\xe9", b"caf" + REPLACED),
    ("a character begun at the end", b"a\xf0\x9f\x98", b"a" + REPLACED),
    ("one begun in a string", b"a\x1b_b\x07c\xe2\x82", b"ac" + REPLACED),
]

# carriage returns, of which --lf drops one right before each line feed
RETURN_ROWS = [
    ("CR LF", b"a\r\n\r\nb\r\n", b"a\n\nb\n"),
    ("CR, a sequence and LF", b"a\r\x1b[K\nb\r\x1b]0;t\x07\n", b"a\nb\n"),
    ("CR, a character that is left out, and LF", b"a\r\x7f\nb\r\xc2\x85\n", b"a\nb\n"),
    ("CR CR LF", b"a\r\r\nb\r\r\r\n", b"a\r\nb\r\r\n"),
    ("a bar, drawn again and again", b" 10%\r 50%\r100%\r\n", b" 10%\r 50%\r100%\n"),
    ("LF CR", b"a\n\rb\n\r", b"a\n\rb\n\r"),
    ("CR before a tab", b"a\r\t\r\n", b"a\r\t\n"),
    ("a CR at the end", b"a\r", b"a\r"),
    ("CR alone", b"\r", b"\r"),
    ("lines of more than a chunk", 3 * (40 * b"x" + b"\r\n") + 17 * b"y" + b"\r" + 31 * b"z" + b"\r\n", 3 * (40 * b"x" + b"\n") + 17 * b"y" + b"\r" + 31 * b"z" + b"\n"),
    ("CR at each place of a chunk", b"".join(n * b"x" + b"\r\n" for n in range(34)), b"".join(n * b"x" + b"\n" for n in range(34))),
    ("characters of several bytes", "é\r\n\N{EURO SIGN}\r\r\n".encode(), "é\n\N{EURO SIGN}\r\n".encode()),
]

# (a CR that a read ends with, and after which the next one fails, is the last byte of the text)
LINES_CUT = (b"a\r\nb\rc\r\r\n", [b"", b"a", b"a\r", b"a\n", b"a\nb", b"a\nb\r", b"a\nb\rc", b"a\nb\rc\r", b"a\nb\rc\r\r", b"a\nb\rc\r\n"])
