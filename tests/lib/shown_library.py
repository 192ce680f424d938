"""What a screen showed of a log, by the libraries: of tests/screen_library. The same bytes as the programs write, which tests/programs tries
on rows worked by hand."""

import random
import shutil

from lib.expected_shown import SHOWN_NARROW_ROWS, SHOWN_ROWS, SHOWN_USUAL_ROWS
from lib.library_shared import ROOT, SANITIZERS, WARNINGS, compiler, failure, left_out, measure, run

CALLER = "%s/tests/callers/shown.c" % ROOT
WRAPPED = ["-Wl,--wrap=malloc", "-Wl,--wrap=realloc"]
SIZES = [None, (20, 6), (2, 1), (1000, 100)]
LINE = b'Script started [COMMANDS="x" TERM="xterm" COLUMNS="20" LINES="6"]\n'
STYLINGS = {"both": [], "light": ["--light"], "dark": ["--dark"], "classes": ["--classes"]}
OPTIONS = {"lines": "--lines", "urls": "--urls", "no_hidden": "--no-hidden"}
SHORT = b'[COLUMNS="20" LINES="6"]'  # (a line that has not come to its end)
# the numbers of a form and of lines, urls, no_hidden and no_screen, by which tests/callers/shown.c writes what a program does by these words
ASKED = {
    "0 0 0 1 1": ["--no-hidden"],
    "1 0 0 1 0": ["--safe", "--no-hidden", "--shown=120x40"],
    "2 1 0 0 1": ["--fragment", "--lines"],
    "2 1 1 1 0": ["--fragment", "--lines", "--urls", "--no-hidden", "--shown=120x40"],
}
DEARER = 1.3  # times the instructions of the program for a byte, which is promised


def c_cases(room, archive):
    """tests/callers/shown.c, also with the sanitizers; and its header in C++."""
    tool = compiler("gcc", "cc", "clang")
    if not tool:
        yield left_out("gcc")
        return
    path = "%s/shown_caller" % room
    command = [tool, "-std=c11", *WARNINGS, CALLER, archive, *WRAPPED, "-o", path]
    yield "gcc takes ansi_shown.h", failure(run(command))
    yield "what it compiled finds what it wants", failure(run([path]))
    yield "gcc with the sanitizers", failure(run([*command, *SANITIZERS]))
    yield "which find nothing", failure(run([path]))
    tool = compiler("g++", "c++", "clang++")
    done = tool and run([tool, "-std=c++17", *WARNINGS, "-fsyntax-only", "-x", "c++", "-"], b'#include "ansi_shown.h"\n')
    yield "g++ takes ansi_shown.h", failure(done) if tool else None


def logs(streams):
    """Rows that are worked by hand, generated streams, and such of recordings."""
    yield from (row[1] for row in [*SHOWN_ROWS[:40], *SHOWN_NARROW_ROWS[:10], *SHOWN_USUAL_ROWS[:10]])
    for number, stream in enumerate(streams):
        yield LINE + stream if number % 3 == 0 else stream
    yield from further_logs()
    yield from [b"", SHORT, LINE, LINE[:-1] + b"x\n" + 30 * b"y", 5000 * b"z", 4095 * b"z" + b"\n", b"\x1b_bk;t=1\x07$ make\xff\xc3"]


def further_logs():
    """Generated ones with hidden text, addresses, links, lines and marks."""
    pick = random.Random(90)
    parts = [b"http://a.b/c ", b"https://example.org/a_(b)?c=d&e;f.", b"mailto:a@b", b"\x1b[8m", b"\x1b[28m", b"\x1b[1;31m", b"\x1b[m", b"\n", b"\r\n", b"\r"]
    parts += [b"<", b"&", b"\x1b]8;;http://x\x1b\\", b"\x1b]8;;\x1b\\", "e\u0301\u4e2d".encode(), b"\x1b[A", b"\x1b[K", b"\xff", b"x" * 19, b"\x1b[8;31mha:////\x1b[0m"]
    for _ in range(80):
        yield b"".join(pick.choice(parts) for _ in range(pick.randrange(60)))


def python_cases(ansi_proved, streams, ansi2text, ansi2html):
    """The package, beside the programs: whole, in pieces, on sizes, in each form."""
    pick, wrong, count = random.Random(89), [], 0
    for log in logs(streams):
        size = pick.choice(SIZES)
        word = "--shown" if size is None else "--shown=%dx%d" % size
        pieces = [log[at : at + 7] for at in range(0, len(log), 7)]
        text = run([ansi2text, word], log).stdout
        styling = pick.choice(list(STYLINGS))
        html = run([ansi2html, "--fragment", word, *STYLINGS[styling]], log).stdout
        more = {name: pick.random() < 0.5 for name in OPTIONS}
        asked = [option for name, option in OPTIONS.items() if more[name]]
        hidden = ["--no-hidden"] * more["no_hidden"]
        by = size or True if pick.random() < 0.7 else False
        further = run([ansi2html, "--fragment", *[word] * (by is not False), *STYLINGS[styling], *asked], log).stdout
        bare = pick.choice([["--safe"], ["--lf"], []])
        named = {name: True for name in ("safe", "lf") if ["--" + name] == bare}
        left = run([ansi2text, *bare, *hidden], log).stdout
        options = {"safe": pick.random() < 0.5, "no_hidden": more["no_hidden"]}
        seen = run([ansi2text, word, *["--safe"] * options["safe"], *hidden], log).stdout
        found = [
            (further, ansi_proved.to_html(log, styling, shown=by, **more)),
            (further, b"".join(ansi_proved.html_of(pieces, styling, shown=by, **more))),
            (left, ansi_proved.strip(log, no_hidden=more["no_hidden"], **named)),
            (left, b"".join(ansi_proved.text_of(pieces, no_hidden=more["no_hidden"], **named))),
            (seen, ansi_proved.shown(log, *(size or ()), **options)),
            (seen, ansi_proved.shown_of(pieces, *(size or ()), **options) if pieces else seen),
            (text, ansi_proved.shown(log, *(size or ()))),
            (html, ansi_proved.to_html(log, styling, shown=size or True)),
        ]
        wrong += [(log, word, had) for wanted, had in found if wanted != had]
        count += 1
    few = None if count > 100 else "there are %d logs" % count
    yield "Python shows of logs what ansi2text and ansi2html do", "not of %r" % (wrong[0],) if wrong else few
    yield from refused_cases(ansi_proved)
    page = ansi_proved.page("\x1b[1m1%\r\x1b[m2%\n", shown=True)
    yield "a page has what was shown", None if "<pre>\n2%\n</pre>" in page else "it is %r" % page[-200:]
    found = ansi_proved.shown("a\udcff\u202e"), ansi_proved.shown("a\u202e", safe=True)
    yield "of a str it is a str", None if found == ("a\ufffd\u202e\n", "a<U+202E>\n") else "it is %r" % (found,)


def cost_cases(room, archive, counted, ansi2text, ansi2html):
    """What a byte costs by some options, beside the programs."""
    if not shutil.which("valgrind") or not compiler("gcc", "cc"):
        return
    path = "%s/shown_costs" % room
    yield "tests/callers/shown.c is built again", failure(run([compiler("gcc", "cc"), "-O2", *WARNINGS, CALLER, archive, *WRAPPED, "-o", path]))
    stream = measure.corpus(measure.colours, 100_000)
    for numbers, words in ASKED.items():
        commands = [ansi2html if numbers[0] == "2" else ansi2text, *words], [path, *numbers.split()]
        wanted, found = (run(it, stream).stdout for it in commands)
        yield "the library writes what the program does by %s" % " ".join(words), None if wanted == found else "it does not"
        by_program, took = ((counted(it, stream, room) - counted(it, b"", room)) / len(stream) for it in commands)
        why = "that is too much" if took > DEARER * by_program else None
        yield "which takes %.1f instructions a byte, and the library %.1f" % (by_program, took), why


def refused_cases(ansi_proved):
    """Sizes and pieces that are none."""
    calls = {
        ValueError: [(1, 24), (1001, 24), (80, 0), (80, 1001), (0, 0)],
        TypeError: [("80", 24), (80, None), (None, 24), (80.0, 24)],
    }
    for error, sizes in calls.items():
        wrong = []
        for size in sizes:
            try:
                wrong.append((size, ansi_proved.shown("a", *size)))
            except error:
                pass
        yield "shown refuses sizes by a %s" % error.__name__, "not %r" % (wrong,) if wrong else None
    for call in (lambda: ansi_proved.shown(5), lambda: ansi_proved.shown_of("ab"), lambda: ansi_proved.shown_of([5])):
        try:
            yield "shown refuses what is no log", "it is %r" % call()
        except TypeError:
            yield "shown refuses what is no log", None
