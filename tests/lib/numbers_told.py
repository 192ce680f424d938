"""Each number, flag and place to count from that a header or a manual page tells, beside the code: of tests/documents.

PHRASES has, for each page, the words in which each of them stands; the names in braces are those of `numbers`, which come from constants of the
code, from the sizes that tests/callers assert, from what the programs answer, and from tables that tests try the library by (HELD says
which). A number that stands in no phrase fails, and so does a phrase that does not stand there."""

import re

from lib import screen_cells

# A number, in base 10 or 16, a character by its number, a size, and the words for where is counted from and for a flag.
TOKEN = re.compile(r"u\+[0-9a-f]{4}|(?<![\w+#/.-])(?<!\w\()(?:\d[\w,]*\w|\d)(?!\w)|\b[a-f]\d\b|\bff (?=that)|counted from|\bflag\b(?! of)")
# What tests/library_python (events) and tests/lib/screen_python.py (screens) see to be so (`told_cases` of both).
HELD = {"FIRST": 0, "BELL": 1, "IGNORED": 1, "GROUP": 1, "ON": 1, "OFF": 0, "NO_LINK": 0, "GOES_ON": 1, "MOST_MARKS": 2, "CELL": 40, "LINKS": 1024}
HELD.update({"LOWEST": "21", "HIGHEST": "7e", "ANY_STYLING": 0, "LIGHT": 1, "DARK": 2, "CLASSES": 3})
SGR = {words: number for rows in screen_cells.ROWS_OF_STYLES for number, _, words in rows if words in screen_cells.ATTRIBUTES}

OWED = ["also where the size beside it is 0"]
BEGINS = ["the state and the room are as they were"]
FALSE = ["answers false where count is not 0"]
NOTHING = ["taken and written become 0", "written becomes 0"]
ROOMS = ["a call takes about {STACK} kib of the stack"]
C1 = "u+0080 to u+009f"
STATUSES = ["exit status 0 all input was read", "was said. {FAILED} ", "be read again. {MISUSED} an option", "by <. {READER_GONE} nobody reads the output"]
OF_SHOWN = [
    'columns="120" lines="40"', "the terminal has {RECORDED_COLUMNS} columns and {RECORDED_ROWS} rows", "no line of up to {RECORDED_COLUMNS} columns wraps",
    "from {MIN_COLUMNS}x{MIN_ROWS} to {MAX_COLUMNS}x{MAX_ROWS}", "--shown 120x40",
]  # fmt: skip
MODES_ASKED = ["1 presses (9), 2 releases too (1000), 3 drags (1002), 4 motion (1003)", "0 in three bytes, 1 by sgr (1006), 2 as urxvt (1015), 3 in pixels (1016)"]
SHAPES = "0 the terminal's own, 1 a block, 2 a line below, 3 a bar (decscusr)"
BUTTONS = "1 left, 2 middle, 3 right, 4 wheel up, 5 down, 6 left, 7 right, 8 back, 9 forward"
ANSWERED = ["becomes {ON} where older ones were lost since the last such call, else {OFF}: at most {MAX_WAITING} wait", "dsr 5 and 6, decxcpr", "csi 18 t, csi ? u, and osc 4, 10, 11 and 12 with ?"]
# what the header and its page say of pictures
PICTURES = [
    "{LIGHT} for light pages, {DARK} for dark ones, and any other number for both", "ask for what they name where they are not {OFF}", "the last {MOST_ABOVE} of the rows that left and are kept",
    "where {MOST_ABOVE} rows are kept", "a title of 0 bytes is none, and fonts of 0 bytes are the usual ones",
]  # fmt: skip
CUT_OFF = ["with the byte, counted from {FIRST}, at which the string begins"]
PHRASES = {
    "include/ansi_events.h": [
        *OWED, *FALSE, "a character that is broken is u+fffd", "of c0 each but esc, and outside of sequences {EXECUTED}", "its 1 to {MAX_OSC_PARTS} parts", "at most {OSC} bytes in all",
        "flag is {BELL} where bel ended it", "its 1 to {MAX_PARAMS} fields", "flag is {IGNORED} where more came than is shown", "byte and flag as those of",
        "and {GROUP} where the next field belongs to the same group", "or 0 where a; did or the field is the last", "a field with no digit is 0",
        "a value is {MAX_FIELD} at most", "an event: {ansi_event} bytes", "0 where it has none", "does not speak of is 0", "at most {MAX_INTERMEDIATES}; what is after them is 0",
        ". each 0.", "two pieces: {ansi_events} bytes", "a room of 16,384 bytes and 1,024 events are few calls", "taken, written and used become 0", "it has {MAX_OSC_PARTS} parts, or {MAX_OSC_RAW} bytes in them",
    ],
    "man/ansi_events.3": [
        *OWED, *FALSE, "a byte, a flag, up to two intermediates", "{MAX_OSC_PARTS} at most, of {MAX_OSC_RAW} bytes in all", "the flag says that bel ended it",
        "the flag says that more came than is shown", "bytes, which are {ANSI_EVENTS_FIELD}", "and {GROUP} where the next field belongs to the same group, else 0",
        "events, which are {ANSI_EVENTS_LEAST_EVENTS}", "bytes of room, which are {ANSI_EVENTS_LEAST_ROOM}", "the numbers are 0",
    ],
    "include/ansi_html.h": [
        *OWED, *FALSE, *NOTHING, *ROOMS, "with del (7f) and " + C1, "a link (osc 8) to", "at most {INLINE} times as long as the stream, by classes {BY_CLASSES} times, and 11 bytes",
        "a link of {MAX_LINK} bytes", "needs: for u+fffd", "two pieces: {ansi_html} bytes", "at most {MOST_TAKEN}", "no more than {CAPACITY} bytes are used", "writes u+fffd where a character is begun",
    ],
    "man/ansi_html.3": [
        *OWED, *FALSE, *ROOMS, "it writes u+fffd where a character is begun", "of room, which are {ANSI_HTML_LEAST_ROOM}", "and at most {MOST_TAKEN}",
        "no more than {CAPACITY} bytes are used", "bytes, which are {ANSI_HTML_END_ROOM}", "the numbers are 0",
    ],
    "include/ansi_safe.h": [
        *OWED, *FALSE, *NOTHING, *ROOMS, "such as u+200d", "as <u+202e>", "as <u+003c>", "hides (sgr {hidden})", "two pieces: {ansi_safe} bytes", "u+fffd where a character is begun",
    ],
    "man/ansi_safe.3": [
        *OWED, *FALSE, *ROOMS, "as <u+202e>", "hides (sgr {hidden})", "u+fffd where a character is begun", "of room, which are {ANSI_SAFE_LEAST_ROOM}",
        "bytes, which are {ANSI_SAFE_END_ROOM}", "the numbers are 0",
    ],
    "include/ansi_strip.h": [
        *OWED, *FALSE, *NOTHING, "tab (09), line feed (0a) and carriage return (0d)", "the other controls below 20 leave nothing", "del (7f) and the characters " + C1,
        "a character that is broken leaves u+fffd", "each byte 80 to ff that belongs to no character", "the byte 9c ends no string", "no control below 20 but those three", "two pieces: {ansi_strip} bytes",
        "writes u+fffd where a character is begun", "two pieces: {ansi_lf} byte, which", "0 begins a text",
    ],
    "man/ansi_strip.3": [
        *OWED, *FALSE, "neither del nor " + C1, "a broken character is u+fffd", "each byte 80 to ff that belongs to no character", "and the byte 9c none", "it writes u+fffd where a character is begun",
        "is a byte, and 0 begins a text", "of room, which are {ANSI_LF_LEAST_ROOM}", "none that takes " + C1,
    ],
    "include/ansi_screen.h": [
        "and no byte 9c in such a one",
        *PICTURES, "a picture is drawn, in {ansi_picture} bytes", "with the title. {OFF}.", "answers false, and written is 0, where the title",
        *OWED, *ANSWERED, "in {ansi_rgb} bytes: or none, where told is 0", "own colours, in {ansi_colors} bytes", "a character that is broken is u+fffd", "none, in {ansi_screen} bytes", "any other number is {ANY_STYLING}", "one of xterm's 256, by its number", "a colour, in {ansi_color} bytes",
        "is shown, in {ansi_style} bytes", "from bold on each is {ON} or {OFF}.. {OFF}. how much of a character", "of a screen shows, in {ansi_cell} bytes", "each link (osc 8) since the last reset; {NO_LINK} for none",
        "{GOES_ON} in the last cell of a row from which autowrap went on to the next: both are one line. {OFF}.", "modes, in {ansi_modes} bytes: each is {ON} where it is on, else {OFF}", "dectcem. 1049. decawm",
        *MODES_ASKED, "1004: the focus", "2004: what is pasted", "2026: what is shown", SHAPES + ". {OFF}.", "5, where num lock is off", "a function key, 1 to 24",
        "a key, in {ansi_key} bytes", "that is known; else 0", "the mouse does, in {ansi_mouse} bytes", "columns, rows and pixels count from 0", BUTTONS, "and at most {MAX_TEXT} bytes",
        "they answer true, and written is 0", "answers false, and written is 0, where the text", "where gained is 0",
        "decsc saves with it, in {ansi_place} bytes: each from origin on is {ON} where it is so, else {OFF}", "letters. the same of g1. characters are those of g1 (so), and not of g0 (si). {OFF}.",
        "where the cursor was (1049)", "margins (decstbm), counted from {FIRST}", "which has count: {ON} where a tab stops there, else {OFF}", "one of xterm's 256 colours",
        "what it shows, in {ansi_screen_options} bytes", "about {CELL} bytes a cell. {OFF}: of all", "and libvterm. 0.", "where the cursor is, counted from {FIRST}", "its row and its column, counted from {FIRST}",
        "the cells of a row, counted from {FIRST}", "which cells of a row, counted from {FIRST}", "or part, and written is 0", ". a row, counted from {FIRST}",
        "has bytes from {LOWEST} to {HIGHEST} alone", "the last {LINKS} links that began are kept", "it answers true, and written is 0", "answer false, and written is 0",
        "answers false, and written is 0, where they have different sizes", "is {ANY_STYLING} for light and dark pages, {LIGHT} for light ones, {DARK} for dark ones, and {CLASSES} for classes",
        "where ed 2, ed 0 at its first cell or ris", "the oldest has the number {FIRST}, and the one that left last kept - 1",
    ],
    "man/ansi_screen.3": [
        *PICTURES, "ansi_picture has, in {ansi_picture} bytes", "reserved[{RESERVED_PICTURE}]\" {OFF}",
        *OWED, *ANSWERED, "ansi_rgb has, in {ansi_rgb} bytes", "told\" 0 where no colour is told", "ansi_colors has, in {ansi_colors} bytes", "palette[256]", "a character that is broken is u+fffd", "from {MIN_COLUMNS} to {MAX_COLUMNS}, and rows, from {MIN_ROWS} to {MAX_ROWS}", "the rest of them is 0", "rows and columns are counted from {FIRST}",
        "has bytes from {LOWEST} to {HIGHEST} alone", "the last {LINKS} links that began are kept", "it answers true, and written is 0",
        "is {ANY_STYLING} for light and dark pages, {LIGHT} for light ones, {DARK} for dark ones, and {CLASSES} for classes", "any other number is {ANY_STYLING}", "where ed 2, ed 0 at its first cell or ris",
        "the oldest has the number {FIRST}", "ansi_cell has, in {ansi_cell} bytes", "marks[{MOST_MARKS}]", "of its link (osc 8)", "takes; {NO_LINK} for none", "mark_count\" 0, 1 or {MOST_MARKS}.",
        "goes_on\" {GOES_ON} in the last cell", "one line; else 0. \"uint8_t reserved[{RESERVED_CELL}]\" 0", "\"uint8_t reserved[{RESERVED_STYLE}]\" 0", "ansi_style has, in {ansi_style} bytes", "on are {ON} or {OFF}", "the first is 0 to 7: black", "number of one of xterm's 256",
        *('%s" sgr {%s}' % (name, name) for name in screen_cells.ATTRIBUTES), "ansi_color has, in {ansi_color} bytes", "values[3]", "each {ON} where it is on, else {OFF}",
        "ansi_modes has, in {ansi_modes} bytes", "screen shows (1049)", "lines are counted from the upper margin", "reserved[{RESERVED_MODES}]\" 0",
        *MODES_ASKED, SHAPES, "focus is told (1004)", "in brackets (2004)", "this ends (2026)", "gained is 0", "ansi_key has, in {ansi_key} bytes", "ansi_mouse has, in {ansi_mouse} bytes",
        "that is known; else 0", "uint8_t reserved\" 0", "5, where num lock is off", "a function key, 1 to 24", BUTTONS, "column\" counted from {FIRST}",
        "one of xterm's 256 colours", "each column, {ON} where a tab stops there, else {OFF}", "ansi_place has, in {ansi_place} bytes, of which those from origin on are {ON} where it is so, else {OFF}",
        "row\" counted from the first of the screen", "reserved[{RESERVED_PLACE}]\" {OFF}", "where the cursor was (1049)",
        *("ansi_%s (%d)" % it for it in screen_cells.NUMBERED), "ansi_screen_options has, in {ansi_screen_options} bytes",
        "about {CELL} bytes a cell", "drops_erased\" {OFF} where all", "reserved[{RESERVED_OPTIONS}]\" 0", "ansi_screen has, in {ansi_screen} bytes", "their length. else it is 0",
        *("%s (%d)" % (name, number) for kind in (screen_cells.KINDS, screen_cells.PARTS) for number, name in enumerate(kind)),
        *("%s (%d)" % (name or "off", number) for number, name in enumerate(screen_cells.UNDERLINES)),
    ],
    "man/ansi2html.1": [
        *STATUSES, *OF_SHOWN, *CUT_OFF, "del (7f) and " + C1, "the default, named, 256 and red", "links (osc 8) whose uri", "was not cut at {MAX_OSC_RAW} bytes or {MAX_OSC_PARTS} parts",
        "hyphens, {MOST_OF_A_TAG} at most", "of the colours 16 to 255", 'data-line="10"', "of more than {ADDRESS} bytes", "the link (osc 8) in which", "the last {MOST_KEPT} that began",
        'in blocks of {LINES_A_BLOCK} lines each, <span data-lines="{LINES_A_BLOCK}">', "(css containment, 4)", "links (osc 8) to other schemes", "hides (sgr {hidden}), until 28 or 0",
        "each byte of text earns {BYTE_EARNS} of them, and each line feed {FEED_EARNS}", "with {FEED_EARNS} for each line feed so far",
    ],
    "man/ansi2screen.1": [
        STATUSES[0], STATUSES[3], "was said. {FAILED} the file", "shown. {MISUSED} an option", "to show sgr {hidden}", "a character that is broken is u+fffd", "--size 80x24",
        "from {MIN_COLUMNS}x{MIN_ROWS} to {MAX_COLUMNS}x{MAX_ROWS}. where", "and else {COLUMNS}x{ROWS}.", 'columns="120" lines="40"', "links (osc 8) and whether",
        "each read, of {PIECE} bytes at most", "looked at, {MOST_FRONT} bytes",
    ],
    "man/ansi2svg.1": [
        STATUSES[0], STATUSES[3], "was said. {FAILED} the file", "drawn. {MISUSED} an option", "hidden text sgr {hidden}", "a character that is broken is u+fffd", "--size 80x24",
        "from {MIN_COLUMNS}x{MIN_ROWS} to {MAX_COLUMNS}x{MAX_ROWS}. where", "and else {COLUMNS}x{ROWS}.", 'columns="120" lines="40"', "it keeps the links (osc 8) that",
        "a cell is 10 units wide and 20 high", "xml may not have is u+fffd", "30 units high", "(u+2500 to u+259f, but for the shades u+2591 to u+2593)", "of the rows that left the last {MOST_ABOVE} are drawn", "(svg) 2, in xml 1.0", "2.54 knows no",
    ],
    "man/ansi2text.1": [
        *STATUSES, *OF_SHOWN, *CUT_OFF, "all other control characters from 00 to 1f", "del (7f) and the characters " + C1, "is broken becomes u+fffd", "each byte 80 to ff that belongs to no character",
        "the byte 9c ends no string",
        "also u+007f to u+009f", "as <u+202e>: its number in base 16", "written as <u+003c>", "what sgr {hidden} hides, until 28 or 0", "hides (sgr {hidden}), until 28 or 0", "u+200d between two emoji", "u+200c after a virama", "u+200b between letters",
        "u+fe0e and u+fe0f after an emoji", "erased, by ed 2 or by ed 0 at its first cell (as", "table 3-7",
    ],
    "man/parselog.1": [
        STATUSES[0], "print u+0041 a printed character", "execute 0a a control", "csi_dispatch [1;31] - false 6d", "esc_dispatch - false 5c", "osc_dispatch false 30 78", "written. {FAILED} reading or writing failed",
        "noticed when {HELD_BACK} kib of output are held back", "end. {MISUSED} other words", "read. {READER_GONE} nobody reads the output",
    ],
}  # fmt: skip
CONSTANTS = {
    "anstyle_parse/src/parser/command": ["MAX_OSC_RAW", "MAX_OSC_PARTS"], "anstyle_parse/src/params": ["MAX_PARAMS"], "anstyle_parse/src/parser/header": ["MAX_FIELD"],
    "event_pieces/src/event": ["MAX_INTERMEDIATES"], "html_pieces/src/state": ["MAX_LINK"], "html_pieces/src/feeding": ["CAPACITY", "MOST_TAKEN"],
    "screen_html/src/table": ["MOST_KEPT"], "screen_svg/src/rows": ["MOST_ABOVE"], "screen_draw/src/updates": ["PIECE"], "screen_text/src/recording": ["MOST_FRONT"], "ansi2html/src/words": ["MOST_OF_A_TAG"], "ansi_html/src/block": ["LINES_A_BLOCK"],
    "command_line/src/lib": ["FAILED", "MISUSED", "READER_GONE"], "ansi_screen/src/size": ["MIN_COLUMNS", "MAX_COLUMNS", "MIN_ROWS", "MAX_ROWS"],
    "screen_pieces/src/cell": ["RESERVED_CELL"], "screen_pieces/src/style": ["RESERVED_STYLE"], "screen_pieces/src/modes": ["RESERVED_MODES"], "screen_pieces/src/parts": ["RESERVED_PLACE"], "screen_pieces/src/picture": ["RESERVED_PICTURE"], "ansi_modes/src/text": ["MAX_TEXT"], "ansi_answers/src/waiting": ["MAX_WAITING"], "ansi_screen_c/src/history": ["RESERVED_OPTIONS"], "ansi_html/src/spare": ["BYTE_EARNS", "FEED_COUNTS"],
}  # fmt: skip
PLAIN = ["PIECE", "MOST_FRONT", "MAX_COLUMNS", "MAX_ROWS", "ansi_colors"]  # which stand there with no commas


def words_of(path, text):
    """The words of a header's comments, or of a manual page without its synopsis and examples, without what marks them up."""
    if path.endswith(".h"):
        text = " . ".join(re.sub(r"(?m)^ \*     .*$", "", it) for it in re.findall(r"/\*(.*?)\*/", text, re.S))
        text = re.sub(r"(?m)^ \*|`= \{0?\}`|`", "", text)
    else:
        text = re.sub(r"(?ms)^\.Sh SYNOPSIS\n.*?(?=^\.Sh)|^\.Bd .*?^\.Ed$", "", text)
        text = re.sub(r"(?m)^\.(?:Dl|Dd|Dt|Os|Xr|In|Bl|El|Bd|Ed)\b.*$", "", text)
        text = re.sub(r"(?m)^\.(?:Fa|Fn|Dv|Ql|It|Nm|Fl|Li|Vt|Pq|Ar|Dq|Cm|Ev|Op|Lk|Sh|Ss)\b|\b(?:Fl|Ns|Ar|Fa|Dv|Ql|Li)\b|^\.Pp$|\\&", "", text)
    return re.sub(r" (?=[,.;:] )", "", " ".join(text.split())).lower()


def numbers(read, constant, executed):
    """The numbers of the code, by their names."""
    found = {name: int(constant("crates/%s.rt" % path, name)) for path, names in CONSTANTS.items() for name in names}
    found["OSC"] = found["MAX_OSC_RAW"] + found["MAX_OSC_PARTS"] - 1
    found["FEED_EARNS"] = found["BYTE_EARNS"] * found["FEED_COUNTS"]
    found["ADDRESS"] = int(constant("crates/html_urls/src/held.rt", "ROOM")) - 1  # (and the byte that ends it)
    found["HELD_BACK"] = int(constant("crates/anstyle_parse/src/io/held.rt", "CAPACITY")) >> 10
    for names, path in (("COLUMNS", "ROWS"), "ansi_screen/src/size"), (("RECORDED_COLUMNS", "RECORDED_ROWS"), "screen_text/src/recording"):
        found.update(zip(names, map(int, re.search(r"columns: (\d+),\s+rows: (\d+),", read("crates/%s.rt" % path)).groups())))
    times = read("crates/ansi_html/specs/Html.antt")
    for name, styling in ("INLINE", r"\(Inline scheme\)"), ("BY_CLASSES", "Classes"):
        found[name] = int(re.search(r"(?m)^html_of_a_byte %s = (\d+)$" % styling, times)[1])
    callers = "".join(read("tests/callers/%s.c" % it) for it in ("answers", "events", "header", "html", "lf", "parts", "pictures", "safe", "screen"))
    found.update((name, int(size)) for name, size in re.findall(r"static_assert\(sizeof\((?:struct )?(\w+)\) == (\d+),", callers))
    found = {name: str(it) if name in PLAIN or name.startswith("RECORDED") else "{:,}".format(it) for name, it in found.items()}
    held = {name: it if isinstance(it, str) else "{:,}".format(it) for name, it in HELD.items()}
    return {**found, **held, **SGR, "EXECUTED": executed}


def cases(read, constant, executed):
    """For each page: which phrase does not stand there, and which number, flag or place to count from stands in none."""
    known = numbers(read, constant, executed)
    for path, phrases in PHRASES.items():
        page = read(path)
        defined = dict(re.findall(r"(?m)^#define (ANSI_\w+) (\d+)$", read("include/%s.h" % path.split("/")[1].split(".")[0]) if "ansi_" in path else ""))
        stack = re.search(r"about (\d+) KiB", page)
        of_page = {**known, **{name: "{:,}".format(int(it)) for name, it in defined.items()}, "STACK": stack and stack[1]}
        text = words_of(path, page)
        told = [it.format(**of_page).lower() for it in phrases]
        missing = [it for it in told if it not in text]
        yield "%s tells the numbers of the code" % path, missing and "it lacks %s" % missing
        left = re.sub("|".join(map(re.escape, sorted(told, key=len, reverse=True))), " ", text)
        others = [left[max(0, it.start() - 40) : it.end() + 40] for it in TOKEN.finditer(left)]
        yield "and no number but these", others and "it has %s" % others
