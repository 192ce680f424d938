"""What docs/MOVING.md says is not in ansi_proved.pyte, beside what pyte 0.8.0 has (its screens.py and streams.py) and what the package has: cases of
tests/documents."""

import ast
import re

# what its screens and streams have in public
PUBLIC = """
    Screen HistoryScreen DiffScreen DebugScreen Stream ByteStream
    buffer charset columns cursor default_char dirty display g0_charset g1_charset icon_name lines margins mode saved_columns savepoints
    tabstops title
    alignment_display backspace bell carriage_return clear_tab_stop cursor_back cursor_down cursor_down1 cursor_forward cursor_position
    cursor_to_column cursor_to_line cursor_up cursor_up1 debug define_charset delete_characters delete_lines draw ensure_hbounds
    ensure_vbounds erase_characters erase_in_display erase_in_line index insert_characters insert_lines linefeed
    report_device_attributes report_device_status reset reset_mode resize restore_cursor reverse_index save_cursor
    select_graphic_rendition set_icon_name set_margins set_mode set_tab_stop set_title shift_in shift_out tab write_process_input
    history prev_page next_page before_event after_event top bottom position ratio size
    attach detach feed select_other_charset use_utf8
    data fg bg bold italics underscore strikethrough reverse x y hidden attrs
""".split()
PACKAGE = "bindings/python/src/ansi_proved/pyte"


def names_of(stub):
    """The classes of a stub, and what each has."""
    for it in ast.parse(stub).body:
        if isinstance(it, ast.ClassDef):
            yield it.name
            yield from (of.name for of in it.body if isinstance(of, ast.FunctionDef))
            yield from (of.target.id for of in it.body if isinstance(of, ast.AnnAssign))
        elif isinstance(it, ast.Assign):
            yield from (of.id for of in it.targets)


def cases(read):
    """What the table names, and what it says of it."""
    table = read("docs/MOVING.md").partition("\n| Not there | In its place |\n|---|---|\n")[2].partition("\n\n")[0]
    rows = [line.strip("| ").split(" | ") for line in table.split("\n")]
    told = {it for row in rows for it in re.findall(r"`(\w+)`", row[0])}
    has = {it for name in ("screens", "streams") for it in names_of(read("%s/%s.pyi" % (PACKAGE, name)))}
    wrong = sorted(told ^ (set(PUBLIC) - has))
    yield "docs/MOVING.md names what of pyte is not there", wrong and "not so of %s" % ", ".join(wrong)
    said = ast.get_docstring(ast.parse(read(PACKAGE + "/__init__.py"))).rpartition("Not there")[2]
    wrong = set(re.findall(r"`(\w+)`", said)) & set(PUBLIC) - told
    yield "so does the module", wrong and "not of %s" % ", ".join(sorted(wrong))
