"""What C and Rust read of a screen, held to tests/lib/screen_cells.py; and what the Rust package's own tests and users of it find.

    c_cases(room), rust_cases(room)    the cases of tests/screen_library
"""

import os
import shutil

from lib.library_shared import INCLUDE, ROOT, RUST, SANITIZERS, WARNINGS, compiler, failure, left_out, run
from lib import screen_cells
from lib import screen_parts

FOLDER = "%s/crates/ansi_screen_c/out" % ROOT
ARCHIVE = FOLDER + "/libansi_screen.a"
CALLERS = "%s/tests/callers" % ROOT
SMALL = ["4", "3"]  # the size of the screens that are compared


def words(names, on):
    return "".join(" " + name for name in names if name in on)


def of_a_screen(columns, rows, modes, cursor, style, cells, links):
    """The lines that tests/callers/cells.c and cells.rs write of a screen."""
    yield "size %s %s" % (columns, rows)
    yield "modes" + words(screen_cells.MODE_NAMES, modes)
    yield "cursor %d %d" % cursor
    yield ("style " + style).rstrip()
    for line in cells:
        place, points, part, link, goes_on, style = line.split("|")
        yield "cell %s %s|%s|%s|%s|%s" % (place, points, part, link, goes_on, style and " " + style)
        if link != "0":
            yield "link %s %s" % (link, links[int(link)])


def difference(done, wanted):
    """Says how a program failed, or which line it writes is another than is wanted, or answers None."""
    found = done.stdout.decode().splitlines()
    lines = ["%r, and not %r" % it for it in zip(found + [""] * len(wanted), wanted) if it[0] != it[1]]
    return failure(done) or (lines[0] if lines else None if len(found) == len(wanted) else "it writes more lines")


def read_cases(name, program):
    """The screen of every kind of cell; modes and cursors; what can have changed; and screens that are equal, or differ in one thing."""
    size = [str(screen_cells.COLUMNS), str(screen_cells.ROWS)]
    *place, is_shown = screen_cells.CURSOR
    modes = {"autowrap", "cursor_shown"} if is_shown else {"autowrap"}
    wanted = [*of_a_screen(*size, modes, tuple(place), screen_cells.STYLE, screen_cells.lines(), screen_cells.LINKS)]
    yield "each cell as it was worked by hand, in %s" % name, difference(run([program, *size, screen_cells.STREAM]), wanted)
    for stream, modes, cursor in screen_cells.MODES:
        wanted = [*of_a_screen(*SMALL, modes, cursor, "", [], {})]
        found = run([program, *SMALL, stream])
        found.stdout = b"\n".join(found.stdout.splitlines()[: len(wanted)])
        yield "the modes and the cursor of %r, in %s" % (stream, name), difference(found, wanted)
    size = [str(it) for it in screen_cells.CHANGED_SIZE]
    done = run([program, *size, "--changes", *(stream for stream, _ in screen_cells.CHANGES)])
    yield "what can have changed by each stream, to the column, in %s" % name, difference(done, [*screen_cells.changed_lines()])
    for answer, pairs in ("equal", screen_cells.EQUAL), ("unequal", screen_cells.UNEQUAL):
        for pair in pairs:
            for one, other in sorted({pair, pair[::-1]}):
                done = run([program, *SMALL, one, other])
                is_so = done.stdout.decode().endswith("\n%s\n" % answer)
                yield "%r and %r are %s, in %s" % (one, other, answer, name), failure(done) or (None if is_so else "they are not")


def c_cases(room):
    tool = compiler("gcc", "cc", "clang")
    if not tool:
        yield left_out("gcc")
        return
    path = room + "/cells in C"
    words = [tool, "-std=c11", *SANITIZERS, *WARNINGS, CALLERS + "/cells.c", ARCHIVE, "-o", path]
    yield "tests/callers/cells.c is built", failure(run(words))
    yield from read_cases("C", path)
    path = room + "/parts in C"
    words = [tool, "-std=c11", *SANITIZERS, *WARNINGS, CALLERS + "/parts.c", ARCHIVE, "-o", path]
    yield "tests/callers/parts.c is built", failure(run(words))
    yield "what answers false writes nothing", failure(run([path]))
    yield from screen_parts.part_cases("C", path)


# ------------------------------------------------------------------ Rust


def rust_cases(room):
    """The Cargo package with the feature `screen`, by rustc: its own tests, and what it reads."""
    if not shutil.which("rustc"):
        yield left_out("rustc")
        return
    package, feature = room + "/libansi_proved.rlib", ["--cfg", 'feature="screen"']
    edition = ["-O", "-D", "warnings", "--edition", "2021"]
    paths = ["-L", FOLDER, "-L", "%s/crates/ansi/out" % ROOT]
    words = ["--crate-type", "rlib", "--crate-name", "ansi_proved", *feature, *paths]
    yield "rustc takes the package", failure(run(["rustc", *edition, *words, RUST + "/src/lib.rs", "-o", package], patience=300))
    known = ["rustc", *edition, *feature, "--extern", "ansi_proved=" + package]
    for path, options in (RUST + "/tests/screen.rs", ["--test"]), (RUST + "/tests/memory.rs", ["--test"]), (CALLERS + "/cells.rs", []), (CALLERS + "/parts.rs", []):
        program = "%s/%s in Rust" % (room, os.path.basename(path))
        yield "%s is built" % os.path.relpath(path, ROOT), failure(run([*known, *options, path, "-o", program], patience=300))
        if options:
            yield "and passes", failure(run([program]))
        elif path.endswith("/parts.rs"):
            yield from screen_parts.part_cases("Rust", program)
        else:
            yield from read_cases("Rust", program)
