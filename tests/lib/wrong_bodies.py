"""What tests/documents asks of the wrong bodies that the prover has to refuse: of must-fail and of mutants."""

import glob
import os
import re

from lib import edits

ROOT = os.path.dirname(os.path.dirname(os.path.dirname(os.path.realpath(__file__))))
CRATES = os.path.join(ROOT, "crates")


def read(path):
    with open(os.path.join(ROOT, path), encoding="utf-8") as file:
        return file.read()


def edited(edit):
    """The files of a crate as an edit leaves them, and why it can't be put in: each text that it takes away has to stand in its file once."""
    texts = {file: read("crates/%s/%s" % (edit.crate, file)) for file, _, _ in edit.pairs}
    for file, old, new in edit.pairs:
        if not old or texts[file].count(old) != 1:
            return texts, "%r is not in %s once" % (old, file)
        texts[file] = texts[file].replace(old, new)
    return texts, all(texts[it] == read("crates/%s/%s" % (edit.crate, it)) for it in texts) and "it changes nothing"


def notes_of(path, text):
    """Where a file of ansi_screen notes that something has changed, and does not forget it again: each call, and the function that it
    stands in."""
    calls = re.finditer(r"\bfn (\w+)|self\.damage\.(?:note\w*|forget)\([^;]*;", re.sub(r"(?s)/\*.*?\*/|//[^\n]*", "", text))
    found, function = set(), None
    for it in calls:
        function = it[1] or function
        if "forget" in it[0]:
            found = {other for other in found if other[1] != function}
        elif not it[1]:
            found.add((path, function, it[0]))
    return found


def unnoted_cases():
    """Whether each place of ansi_screen that notes what has changed has a wrong body, in which it does not."""
    files = sorted(glob.glob(os.path.join(CRATES, "ansi_screen/src/**/*.rt"), recursive=True))
    texts = {os.path.relpath(it, CRATES + "/ansi_screen"): read(it) for it in files}
    places = {it: notes_of(it, text) for it, text in texts.items()}
    gone = set()
    for edit in edits.of_gate("ansi_screen") + edits.of_others("ansi_screen"):
        changed = edited(edit)[0]
        gone |= set().union(*(places[it] - notes_of(it, changed[it]) for it in changed if it in places))
    all_of_them = set().union(*places.values())
    left = sorted("%s of %s: %s" % (function, path, call) for path, function, call in all_of_them - gone)
    yield "each of the %d places where ansi_screen notes a change has a wrong body" % len(all_of_them), left or len(all_of_them) < 25


def named_by_design():
    """The names that follow the words 'wrong bodies'."""
    lists = re.findall(r"wrong\s+bodies\s+((?:`[^`]+`[,;]?\s*)+)", read("docs/DESIGN.md"))
    return {name for names in lists for name in re.findall("`([^`]+)`", names)}


def cases():
    """Whether each can be put in and has a name of its own, how many the gate tries, and whether what is noted of a screen has one for each
    place that notes."""
    crates, tried, names = sorted(os.listdir(CRATES)), {}, set()
    unknown = sorted(set(edits.crates_of_others()) - set(crates))
    yield "each file of mutants/ is of a crate", ", ".join(unknown) or None
    for crate in crates:
        tried[crate], others = edits.of_gate(crate), edits.of_others(crate)
        own = [it.name for it in tried[crate] + others]
        names.update(own)
        twice = sorted({it for it in own if own.count(it) > 1})
        for place, there in ((edits.GATE % crate, tried[crate]), (edits.OTHERS % crate, others)):
            whys = [(it.name, edited(it)[1]) for it in there]
            wrong = ["%s: %s" % (it, why) for it, why in whys if why]
            if there:
                yield "the %d wrong bodies of %s can be put in" % (len(there), place), ", ".join(wrong) or twice and "twice: %s" % ", ".join(twice)
    many = [it for it, there in tried.items() if len(there) > (29 if it == "anstyle_parse" else 10)]
    more = sum(map(len, tried.values())) > 126 and "it tries more"
    yield "the gate tries at most 126 wrong bodies, 29 of anstyle_parse, 10 of another", many or more
    named = named_by_design()
    gone = sorted(named - names)
    yield "the %d wrong bodies that docs/DESIGN.md names are there" % len(named), ", ".join(gone) or not named and "it names none"
    yield from unnoted_cases()
