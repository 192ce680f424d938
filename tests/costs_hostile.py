#!/usr/bin/env python3
"""The hostile streams of tests/costs for lines, addresses, pages, screens and the library: what each takes at most.

Usage: tests/costs_hostile.py [--help] [--output] [NAME=PATH ..] > tests/lib/hostile_limits.py

    --output    the bytes of output alone, which are the same where nothing is proved: None in the place of the instructions, which then have no limit
    NAME=PATH   as for tests/costs

The limits stand in one table, tests/lib/hostile_limits.py. By hand this script writes it anew, a twentieth above what the programs take,
where something got cheaper, or dearer for a reason.
"""

import importlib.machinery
import os
import shutil
import subprocess
import sys
import tempfile

ROOT = os.path.dirname(os.path.dirname(os.path.realpath(__file__)))
sys.path.insert(0, os.path.join(ROOT, "bench"))

import hostile

HTML, FRAGMENT = "ansi2html", ["--fragment"]
# The commands, each a program and its words, or a caller of the library; their streams, and the bytes of each.
OF_ALL = ["a link of quotes for each letter", "a long style, plain in turns", "red, green and blue, dim on a ground", "quotes", "carriage returns"]
GROUPS = {
    "lines and addresses": (
        [(HTML, [*FRAGMENT, "--lines"]), (HTML, [*FRAGMENT, "--urls"]), (HTML, [*FRAGMENT, "--lines", "--urls"]), (HTML, ["--lines", "--urls"]), (HTML, [])],
        {**{name: hostile.PATTERNS[name] for name in OF_ALL}, **hostile.LINE_PATTERNS},
        1 << 14,
    ),
    "screens": (
        [
            *[("ansi2text", ["--shown"]), ("ansi2text", ["--safe", "--shown"]), (HTML, [*FRAGMENT, "--shown"]), (HTML, ["--shown=120x40"])],
            *[("ansi2screen", ["--size=120x40"]), ("ansi2screen", ["--size=120x40", "--updates"]), ("screen", ["120", "40"])],
        ],
        hostile.SCREEN_PATTERNS,
        1 << 12,
    ),
    "the library": ([("filter", ["4096"]), ("safe", ["4096"]), ("events", ["quiet", "4096", "1024", "16384"])], hostile.PATTERNS, 1 << 14),
}
# The callers of the library, of examples and of tests/callers, with what they are linked to.
CALLERS = {"filter": ("examples/filter.c", "ansi"), "safe": ("examples/safe.c", "ansi"), "screen": ("examples/screen.c", "ansi_screen")}
CALLERS["events"] = ("tests/callers/events.c", "ansi")
LIMITS = '''"""What tests/costs_hostile.py wrote, a twentieth above what was taken: of each group and stream, by each of the commands of that group, the
instructions for each byte, None where they were not counted, and the bytes of output for each byte."""
'''


def built(folder):
    """The programs over the library, where they can be built."""
    found, cc = {}, shutil.which("gcc")
    for name, (source, library) in CALLERS.items():
        archive = "%s/crates/%s/out/lib%s.a" % (ROOT, library + "_c" * (library == "ansi_screen"), library)
        subprocess.run(["make", "-C", ROOT, os.path.relpath(archive, ROOT)], stdin=subprocess.DEVNULL, stdout=subprocess.DEVNULL, stderr=subprocess.DEVNULL)
        if cc and os.path.exists(archive):
            include = ["-I%s/%s" % (ROOT, it) for it in ("include", "examples", "tests/callers")]
            found[name] = os.path.join(folder, name + "_hostile")
            subprocess.run([cc, "-O2", *include, os.path.join(ROOT, source), archive, "-o", found[name]], check=True)
    return found


def taken(counts, group, callers, is_counted=True):
    """What the commands of a group take: for each stream the instructions, where they are to be counted, and the bytes of output of each; with None
    for a command that is not built."""
    commands, streams, size = GROUPS[group]
    commands = [[callers[name], *words] if name in callers else name not in CALLERS and counts.command(name, words) for name, words in commands]
    paths = {name: counts.stream("%s, %s" % (group, name), hostile.stream(it, size)) for name, it in streams.items()}
    runs = [(command, path) for path in [os.devnull, *paths.values()] for command in commands if command]
    works = counts.counted(runs) if is_counted else [0] * len(runs)
    lengths, count = list(counts.pool.map(lambda it: length_of(*it), runs)), len(list(filter(None, commands)))
    for at, name in enumerate(paths, 1):
        part = slice(at * count, (at + 1) * count)
        each = zip(works[part], works[:count], lengths[part], lengths[:count])
        each = iter([((work - none) / size, (length - empty) / size) for work, none, length, empty in each])
        yield name, [next(each) if command else None for command in commands]


def length_of(command, path):
    """The bytes of output of a command on a file."""
    with open(path, "rb") as data, subprocess.Popen(command, stdin=data, stdout=subprocess.PIPE, stderr=subprocess.DEVNULL) as ran:
        return sum(map(len, iter(lambda: ran.stdout.read(1 << 20), b"")))


def cases(counts, is_within):
    from lib.hostile_limits import MOST  # (which this script may be about to write)

    callers = built(counts.folder)
    for group, (commands, streams, _) in GROUPS.items():
        limits = {name: MOST.get((group, name)) or [(0, 0)] * len(commands) for name in streams}
        is_counted = any(work is not None for each in limits.values() for work, _ in each)
        for name, found in taken(counts, group, callers, is_counted):
            for (program, words), took, (work, output) in zip(commands, found, limits[name]):
                said = "%s on %s" % (" ".join([program, *words]), name)
                if took and work is not None:
                    yield is_within(said, took[0], work, "instructions a byte")
                if took:
                    yield is_within("the output of " + said, took[1], output, "times its length", True)


def rows(counts, is_counted):
    """The lines of tests/lib/hostile_limits.py."""
    upper = lambda it: float("%.3g" % (it * 1.05)) if it > 0 else 0
    shown = lambda took: "(%s, %g)" % ("%g" % upper(took[0]) if is_counted else None, upper(took[1]))
    callers = built(counts.folder)
    yield LIMITS + "MOST = {"
    for group in GROUPS:
        for name, found in taken(counts, group, callers, is_counted):
            yield '    ("%s", "%s"): [%s],' % (group, name, ", ".join(shown(it or (0, 0)) for it in found))
    yield "}"


def main(words):
    if words == ["--help"]:
        print(__doc__.strip())
        return 0
    costs = importlib.machinery.SourceFileLoader("costs", ROOT + "/tests/costs").load_module()
    given = dict(word.partition("=")[::2] for word in words if word != "--output")
    with tempfile.TemporaryDirectory() as folder:
        for row in rows(costs.Counts(given, folder), "--output" not in words):
            print(row, flush=True)
    return 0


if __name__ == "__main__":
    sys.dont_write_bytecode = True
    sys.exit(main(sys.argv[1:]))
