"""What the tests of the library share: streams and their text, compilers, and how a command failed."""

import os
import random
import re
import shutil
import subprocess
import sys
import threading
import time

ROOT = os.path.dirname(os.path.dirname(os.path.dirname(os.path.realpath(__file__))))
ARCHIVE = "%s/crates/ansi/out/libansi.a" % ROOT
EXAMPLES = "%s/examples" % ROOT
PYTHON = "%s/bindings/python/src" % ROOT  # the folder of the package
RUST = "%s/bindings/rust" % ROOT
INCLUDE = "-I%s/include" % ROOT
WARNINGS = ["-Wall", "-Wextra", "-Werror", INCLUDE]
STRICT = ["-O", "-D", "warnings", "--edition", "2021"]
SANITIZERS = ["-g", "-fsanitize=address,undefined", "-fno-sanitize-recover=all"]
PATIENCE = 60  # seconds that a program has
SIZES = [1, 2, 3, 7, 64, 1000, 4095, 4096]  # of the pieces


sys.path[:0] = [PYTHON, "%s/bench" % ROOT]
from lib import as_read
import measure
from lib import needs
from lib import pages
from lib.stand_ins import copy_unbuilt


def compiler(name, *others):
    """The first of these compilers that is there."""
    return next((it for it in (name, *others) if shutil.which(it)), None)


def by_rust(source, room):
    """The command that compiles a program over the package in Rust, which it compiles first where the room has it not."""
    package = room + "/libansi_proved.rlib"
    if not os.path.exists(package):
        words = ["--crate-type", "rlib", "--crate-name", "ansi_proved", "-L", os.path.dirname(ARCHIVE)]
        subprocess.run(["rustc", *STRICT, *words, RUST + "/src/lib.rs", "-o", package], check=True)
    return ["rustc", *STRICT, "--extern", "ansi_proved=" + package, source]


def run(command, given=b"", patience=PATIENCE, **options):
    streams = {"stdout": subprocess.PIPE, "stderr": subprocess.PIPE}
    try:
        return subprocess.run(command, input=given, timeout=patience, **{**streams, **options})
    except subprocess.TimeoutExpired:
        return subprocess.CompletedProcess(command, 124, b"", b"it does not end")


def read(path):
    with open(os.path.join(ROOT, path), encoding="utf-8") as file:
        return file.read()


def utf8(text):
    """The UTF-8 of a str, in which each surrogate is U+FFFD."""
    return "".join("\ufffd" if "\ud800" <= it <= "\udfff" else it for it in text).encode()


def left_out(name):
    """A case for a compiler that is not there."""
    return needs.left_out(name, "its compiler is not there")


def failure(done):
    """Says how a command failed, or answers None."""
    return None if done.returncode == 0 else "status %d, %r" % (done.returncode, (done.stderr or done.stdout)[-300:])


def archive_built():
    """The archive, as `rt lib` builds it."""
    yield "rt lib builds the archive", failure(run(["rt", "lib"], cwd="%s/crates/ansi" % ROOT, patience=needs.BUILDING))


def counted(document, cases):
    """Says what cases come to, a line for each: what a script of this folder does. Answers its status."""
    if sys.argv[1:]:
        print(document.strip())
        return 0 if sys.argv[1:] == ["--help"] else 2
    passed = failed = 0
    for name, why in cases():
        passed, failed = passed + (not why), failed + bool(why)
        print("FAILED  %s: %s" % (name, why) if why else "passed  %s" % name, flush=True)
    print("%d passed, %d failed" % (passed, failed))
    return 1 if failed or not passed else 0


def ticks_during(call):
    """How many thousandths of a second another thread has its turn while a call runs, and how many it takes."""
    ticks, is_over = [0], threading.Event()

    def tick():
        while not is_over.is_set():
            time.sleep(0.001)
            ticks[0] += 1

    thread = threading.Thread(target=tick)
    thread.start()
    time.sleep(0.01)
    started, before = time.monotonic(), ticks[0]
    call()
    took, counted = time.monotonic() - started, ticks[0] - before
    is_over.set()
    thread.join()
    return counted, 1000 * took


# ------------------------------------------------------------------ streams and their text


def streams():
    """Short ones of every kind, one for each corpus of bench/measure.py, and random bytes."""
    yield "no bytes", b""
    rows = [
        b"\x1b[31mhi\x07\x1b[0m\n",
        b"\x1b]0;title\x07a\r\n\x1b]8;;http://a/\x1b\\link\x1b]8;;\x1b\\!",
        b"\x1bPq\n\t\rA\x9cB\x1b_a\x9c\x1b^b\x9c\x1bXc\x9cd\x1b(B\x1b7\x1bM.",
        b"\xe2\x82\xac\xf0\x9f\x98\x80 \xe2\x82A \xf0\x9f\x98 \xc2\xc2\xc2A \xff\xc0b\x7f\x80\x9c\xc2\x80",
        b"\x1b[" + b"1:2;" * 40 + b"m\x1b]" + b"0;" * 20 + b"x" * 2000 + b"\x07 text \x1b[3",
    ]
    yield "sequences of every kind", b"".join(rows) * 3
    for corpus in measure.CORPORA:
        yield corpus.__name__, measure.corpus(corpus, 40_000)
    pick = random.Random(18)
    yield "random bytes", pick.randbytes(20_000)
    often = b"\x1b[]P\\;:m\x07\x18A0\n\xc2\xe2\x82\xac\xf0\x9f"
    yield "random bytes of sequences", bytes(pick.choice(often) for _ in range(20_000))
    often = b'\x1b]8;;https://e.org/%d&"\x1b\\\x1b[3%dml%d"\r\x1b[1m<x\r\n\x1b]8;;\x07 t'
    yield "links", b"".join(often % (at, at % 8, at) for at in range(400))
    often = b"\x1b]8;;https://e.org/" + b"&" * 1000 + b"\x07\x1b[%dma\"\xe2\x82\xf0\x9f\"\r<"
    yield "long links, much HTML of few bytes", b"".join(often % (30 + at % 8) for at in range(60))
    yield "characters that are broken, the longest text", b"\xf0" * 4096 + b"a" + b"\xf0\x9f\x98" * 2000


def output_of(program, stream, *words):
    """What a program writes of a stream, with these words."""
    done = run(["%s/crates/%s/out/%s" % (ROOT, program, program), *words], stream)
    done.check_returncode()
    return done.stdout


def stripped_of(stream):
    """The stripped text of a stream, by the calls that parselog writes: with DEL and U+0080 to U+009F."""
    return pages.text_of(output_of("parselog", stream))


def text_of(stream):
    """The text that drives no terminal, of a stream as a reader of logs reads it (tests/lib/as_read.py)."""
    return re.sub("[\x7f-\x9f]", "", stripped_of(as_read.as_read_whole(stream)).decode()).encode()


def safe_of(stream):
    """What ansi2text --safe writes."""
    return output_of("ansi2text", stream, "--safe")


def html_of(stream, styling="both"):
    """What ansi2html writes in a styling."""
    words = ["--fragment"] if styling == "both" else ["--fragment", "--" + styling]
    return output_of("ansi2html", stream, *words)


def printed_of(stream):
    """The characters that are printed: stripped text without the controls that lay it out."""
    return re.sub(rb"[\t\n\r]", b"", stripped_of(stream))


def pieces(stream, size):
    return [stream[at : at + size] for at in range(0, len(stream), size)]


def first_difference(found, wanted):
    if found == wanted:
        return None
    at = next((at for at, (a, b) in enumerate(zip(found, wanted)) if a != b), min(len(found), len(wanted)))
    return "%d bytes, and not %d; byte %d is the first that differs" % (len(found), len(wanted), at)


def beside_cases(ansi, name, kinds, sizes, pick, wanted_of):
    """Streams, each with its kind, beside what a program writes of them, where an option of `strip` and `text_of` is taken: at once, in
    pieces of each size, and cut at random, where each part of the text is UTF-8 by itself."""
    option = {name: True}
    for kind, stream in kinds:
        wanted = wanted_of(stream)
        yield "%s: %s at once" % (name, kind), first_difference(ansi.strip(stream, **option), wanted)
        for size in sizes:
            found = b"".join(ansi.text_of(pieces(stream, size), **option))
            yield "%s: %s in pieces of %d" % (name, kind, size), first_difference(found, wanted)
        cut = [it for it in pieces(stream, 4096) for it in pieces(it, pick.randint(1, 4096))]
        parts = [it.decode(errors="replace").encode() for it in ansi.text_of(cut, **option)]
        yield "%s: %s in random pieces, each part is UTF-8" % (name, kind), first_difference(b"".join(parts), wanted)


def option_cases(ansi, name, given, cut, wanted):
    """Of an option of `strip` and `text_of`: all kinds of bytes that a text and its pieces may be, and that the word for the
    option is taken by its name alone."""
    option = {name: True}
    for kind in (bytes, bytearray, memoryview):
        yield "%s: a text may be %s" % (name, kind.__name__), first_difference(ansi.strip(kind(given), **option), wanted)
        parts = [kind(given[:cut]), kind(given[cut:])]
        yield "%s: a piece may be %s" % (name, kind.__name__), first_difference(b"".join(ansi.text_of(parts, **option)), wanted)
    for call, text in [("strip", "a"), ("text_of", [b"a"])]:
        for more in ([True], [False, True]):
            words = "%s: %s takes the word by its name alone, and not as %d behind the text" % (name, call, len(more))
            try:
                yield words, "it answers %r" % getattr(ansi, call)(text, *more)
            except TypeError:
                yield words, None


def piece_cases(ansi, name, given, first, rest):
    """Of an option of `text_of`: the text of a piece comes before the next piece is asked for."""
    given = iter(given)
    texts = ansi.text_of(given, **{name: True})
    found = next(texts), len(list(given)), list(texts)
    words = "%s: the text of a piece comes before the next piece is asked for" % name
    yield words, None if found == (first, 2, rest) else "it is %r" % (found,)
