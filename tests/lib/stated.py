"""What headers, manual pages and examples have to say, in small letters and without markup: of tests/documents, which has the
numbers of the code for the names in braces."""

# What headers and manual pages say of answers, limits and bytes, with the numbers of the code.
SAID = {
    "ansi_strip": [
        "answers true where bytes were taken, or where there were none",
        "answers false where count is not 0 and size is below ansi_strip_least_room",
        "answers false where size is below ansi_strip_end_room",
        "answers false where count is not 0 and size is below ansi_lf_least_room",
        "answers false where size is below ansi_lf_end_room",
    ],
    "ansi_safe": [
        "answers true where bytes were taken, or where there were none",
        "answers false where count is not 0 and size is below ansi_safe_least_room",
        "answers false where size is below ansi_safe_end_room",
    ],
    "ansi_html": [
        "answers true where bytes were taken, or where there were none",
        "answers false where count is not 0 and size is below ansi_html_least_room",
        "answers false where size is below ansi_html_end_room",
        "at least one byte was taken, and at most {MOST_TAKEN}",
        "of a room no more than {CAPACITY} bytes are used",
    ],
    "ansi_events": [
        "answers true where bytes were taken, or where there were none",
        "answers false where count is not 0, and most is below ansi_events_least_events or size below ansi_events_least_room",
    ],
}
SAID_IN = {
    "include/ansi_events.h": [
        "its 1 to {MAX_OSC_PARTS} parts with ; between them, at most {OSC} bytes in all",
        "its 1 to {MAX_PARAMS} fields",
        "its value, low byte first, and 1 where the next field belongs to the same group (a : stood between them), or 0",
        "a value is {MAX_FIELD} at most",
        "at most {MAX_INTERMEDIATES}; what is after them is 0",
        "a control, byte: of c0 each but esc, and outside of sequences {EXECUTED}",
    ],
    "man/ansi_events.3": [
        "{MAX_OSC_PARTS} at most, of {MAX_OSC_RAW} bytes in all",
        "which are 3: its low byte, its high byte, and 1 where the next field belongs to the same group, else 0",
    ],
    "include/ansi_html.h": ["opens a link of {MAX_LINK} bytes"],
    "include/ansi_screen.h": [
        "#define ansi_screen_min_columns {MIN_COLUMNS} #define ansi_screen_max_columns {MAX_COLUMNS}",
        "#define ansi_screen_min_rows {MIN_ROWS} #define ansi_screen_max_rows {MAX_ROWS}",
        "a cell has a character and two marks, of four bytes each at most",
        "answers false, and holds none, where that is no size, or where there is no memory",
        "all functions from here on answer false where no screen is held. then, and wherever else they answer false, the screen is as it was",
        "writes a cell, by its row and its column, counted from 0. answers false outside of the screen",
        "answers false where there is no such row, and where count is less than the number of columns",
        "they answer false where there is no such row or part, and written is 0",
        "and where the text has more than size bytes: then written says how many",
        "the column is the number of columns where the last one was printed",
        "modes, in 16 bytes: each is 1 where it is on, else 0",
        "the oldest has the number 0, and the one that left last kept - 1",
        "answers false, and written is 0, where they have different sizes",
        "answers false, and written is 0, where the title or the fonts are no utf-8",
        "where there is none, they answer false, and written is 0",
    ],
    "man/ansi_screen.3": [
        "columns, from {MIN_COLUMNS} to {MAX_COLUMNS}, and rows, from {MIN_ROWS} to {MAX_ROWS}, and frees what was held",
        "rows and columns are counted from 0",
        "ansi_screen_open and ansi_screen_open_with answer false where there is no such size, or no memory: then none is held",
        "all others answer false where none is held, outside of the screen, and where end is less than start",
        "the functions that write text or bytes also do where the room is too small: then written is their length. else it is 0",
        "ansi_screen_row, ansi_screen_hidden_row, ansi_screen_history_row and ansi_screen_stops do where there is room for less than the screen has columns",
        "the oldest has the number 0",
        "ansi_screen_draw, ansi_screen_update and ansi_screen_html also do where there is no memory, and ansi_screen_update where the sizes differ",
        "ansi_screen_lines_html and ansi_screen_svg also do where there is no memory, and ansi_screen_svg where the title or the fonts are no utf-8",
    ],
    # (what safe text does not hide, and what it is not)
    "docs/USING.md": ["what the log erases or writes over stands in it, unmarked. with --shown it is not there", "titles, targets of links and images are left out"],
    "SECURITY.md": ["erases or writes over by sequences is in it, unmarked; --safe --shown writes what a terminal showed", "titles, targets of links and images are in neither"],
    "man/ansi2text.1": ["erases or writes over by sequences is in it as any other text", "what still shows is written at the end alone"],
    "bindings/python/src/ansi_proved/event.py": ["its first {MAX_OSC_PARTS} parts, of {MAX_OSC_RAW} bytes in all"],
}
# What a status means, by the constant of the code that is its number; and what an example says of the last two.
MEANT = {
    "0": ("all input was read",),
    "FAILED": ("could not be opened, read or written, or memory is wanting", "reading or writing failed"),
    "MISUSED": ("an option was given that is none", "other words were given"),
    "READER_GONE": ("nobody reads the output any more",),
}
ENDS = "ends with status {FAILED} where reading or writing fails, with {MISUSED} for other words"
ENDING = ["examples/filter.c", "examples/page.c", "examples/safe.c", "bindings/rust/examples/filter.rs", "bindings/rust/examples/page.rs"]
