"""Runs a program of this package: python -m ansi_proved ansi2text log."""

import os
import shutil
import sys
import sysconfig

from .library import FOLDER

PROGRAMS = "ansi2text", "ansi2html", "ansi2screen", "ansi2svg", "parselog"
USAGE = """usage: python -m ansi_proved PROGRAM [WORD]..

Runs a program of the package, with these words: %s.
`python -m ansi_proved ansi2text --help` says what that one does."""


def folders():
    """Where an installer puts programs: of this Python, of this user, and of what stands beside the package."""
    yield sysconfig.get_path("scripts")
    yield sysconfig.get_path("scripts", os.name + "_user")
    # (of pip install --target, and of make install)
    yield from (os.path.join(FOLDER, *[os.pardir] * up, "bin") for up in (1, 4))


def place_of(program):
    """Where a program is, or None."""
    places = [os.path.join(folder, program) for folder in folders()]
    return next((it for it in places if os.access(it, os.X_OK)), None) or shutil.which(program)


def main(words):
    usage = USAGE % ", ".join(PROGRAMS)
    if words[:1] in (["-h"], ["--help"]):
        print(usage)
        return 0
    if not words or words[0] not in PROGRAMS:
        print(usage, file=sys.stderr)
        return 2
    place = place_of(words[0])
    if place is None:
        print("there is no %s here: a wheel of this package has it, and so has `make install`" % words[0], file=sys.stderr)
        return 1
    os.execv(place, [words[0], *words[1:]])


if __name__ == "__main__":
    sys.exit(main(sys.argv[1:]))
