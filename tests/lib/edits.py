"""Wrong bodies that the prover has to refuse: those of must-fail, each in a file of its own, and those of mutants, a file a crate.

One is put in by lines 'file:', 'old:' and 'new:'. A line 'only:' names the function whose proof it breaks, where that is not the one that
it changes. In mutants/CRATE.edits each begins with a line 'edit:', which has its name.
"""

import collections
import os

ROOT = os.path.dirname(os.path.dirname(os.path.dirname(os.path.realpath(__file__))))
GATE, OTHERS = "crates/%s/must-fail", "mutants/%s.edits"

# The crate and the name; the texts that it puts into files, as (file, old, new); the function whose proof it breaks, or None; its lines.
Edit = collections.namedtuple("Edit", "crate name pairs shown_in text")


def read(path):
    with open(os.path.join(ROOT, path), encoding="utf-8") as file:
        return file.read()


def edit_of(crate, name, text):
    """The edit with this name that these lines are."""
    pairs, shown_in, file, old = [], None, None, None
    for line in text.split("\n"):
        word, _, rest = line.removeprefix("# ").partition(" ")
        if word == "only:":
            shown_in = rest
        elif word == "file:":
            file = rest
        elif word == "old:":
            old = rest
        elif word == "new:":
            pairs.append((file, old, rest))
    return Edit(crate, name, pairs, shown_in, text)


def of_gate(crate):
    """Those that the gate tries."""
    folder = GATE % crate
    there = os.path.join(ROOT, folder)
    names = sorted(it for it in os.listdir(there) if it.endswith(".edit")) if os.path.isdir(there) else []
    return [edit_of(crate, it.removesuffix(".edit"), read("%s/%s" % (folder, it))) for it in names]


def of_others(crate):
    """Those that `make mutants` tries."""
    if not os.path.isfile(os.path.join(ROOT, OTHERS % crate)):
        return []
    parts = ("\n" + read(OTHERS % crate)).split("\nedit: ")[1:]
    return [edit_of(crate, *part.split("\n", 1)) for part in parts]


def crates_of_others():
    """The crates that have such."""
    return sorted(it.removesuffix(".edits") for it in os.listdir(os.path.join(ROOT, "mutants")) if it.endswith(".edits"))
