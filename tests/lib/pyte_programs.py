"""Programs that use pyte, of Debian, and examples of pyte: each as it stands, but for its import, beside what it does with pyte. Cases of
tests/pyte."""

import json
import os
import re
import shutil
import tempfile

from lib import needs
from lib.library_shared import PATIENCE, PYTHON, failure, run
from lib.pyte_own import SOURCES
from lib.pyte_rows import RECORDINGS

IMPORT = re.compile(r"(?m)^(\s*)(import|from) pyte\b(\.\w+)?( import .*)?$")
INTERPRETER = "/usr/bin/python3"  # Debian's, which has pyte
# a call of thefuck's, as `fuck` makes it of what a shell logged
READ_LOG = "import sys\nfrom thefuck.output_readers.read_log import get_output\nprint(get_output(sys.argv[1]))"
SEEDED = "import random, runpy\nrandom.seed(1)\nrunpy.run_path('history.py', run_name='__main__')"
MARK = 10 * "\u200b"  # thefuck's, of a prompt
LOG_BYTES = 1024 * 1024  # of its log
TESTED = ["termtosvg.tests.test_anim", "termtosvg.tests.test_term"]


def replaced(found):
    """A line that imports pyte, which imports ansi_proved.pyte in its place."""
    begins, word, part, rest = found.groups()
    if word == "from":
        return "%sfrom ansi_proved.pyte%s%s" % (begins, part or "", rest)
    return "%simport ansi_proved.pyte as pyte" % begins


def changed(folder, to):
    """Copies a program, with its imports of pyte replaced. Answers how many lines that were."""
    shutil.copytree(folder, to, ignore=shutil.ignore_patterns("__pycache__"))
    count = 0
    for at, _, names in os.walk(to):
        for path in (os.path.join(at, it) for it in names if it.endswith(".py")):
            with open(path, encoding="utf-8") as file:
                text, lines = IMPORT.subn(replaced, file.read())
            with open(path, "w", encoding="utf-8") as file:
                file.write(text)
            count += lines
    return count


def python(folder, *words, given=b"", **known):
    """Runs Debian's Python in a folder, without what Python writes there."""
    known = {**os.environ, "PYTHONPATH": "%s:%s" % (folder, PYTHON), "PYTHONDONTWRITEBYTECODE": "1", **known}
    return run([INTERPRETER, *words], given, patience=10 * PATIENCE, cwd=folder, env=known)


def both(name, folders, *words, before=b"", tries=1, **known):
    """A case: a command does well, and with ansi_proved.pyte it writes what it writes with pyte, after what is to come before that."""
    for _ in range(tries):
        theirs, ours = (python(folder, *words, **known) for folder in folders)
        why = failure(theirs) or failure(ours)
        if not why and theirs.stdout.strip() and before + theirs.stdout == ours.stdout:
            return name, None
    return name, why or "it writes %r, and not %r" % (ours.stdout[:500], theirs.stdout[:500])


def cast(name):
    """A recording as asciinema has it, in reads of 100 bytes, one each tenth of a second."""
    with open("%s/%s" % (RECORDINGS, name), encoding="utf-8", newline="") as file:
        text = file.read()
    lines = [{"version": 2, "width": 80, "height": 24}]
    lines += [[at / 1000, "o", text[at : at + 100]] for at in range(0, len(text), 100)]
    return "\n".join(map(json.dumps, lines))


def shown(svg):
    """What a picture of termtosvg shows: the texts of each frame with their places and colours, without the blanks at their ends."""
    texts = re.findall(r"<text ([^>]*)>([^<]*)</text>", svg)
    found = [(dict(re.findall(r'(\S+)="([^"]*)"', words)), text.replace("\u00a0", " ").rstrip()) for words, text in texts]
    return [({key: value for key, value in words.items() if key != "textLength"}, text) for words, text in found if text]


def termtosvg_cases(room, folders):
    """Its own tests of the screen, and the frames of recordings."""
    done = python(folders[1], "-m", "unittest", *TESTED)
    yield "termtosvg: its own tests", failure(done)
    for name in sorted(os.listdir(RECORDINGS)):
        with open(room + "/cast", "w", encoding="utf-8") as file:
            file.write(cast(name))
        found, why = [], None
        for folder in folders:
            why = why or failure(python(folder, "-m", "termtosvg", "render", room + "/cast", room + "/svg", "-s"))
            found.append(["%s" % it for it in frames(room + "/svg")])
            shutil.rmtree(room + "/svg", ignore_errors=True)
        is_so = found[0] and found[0] == found[1]
        yield "termtosvg: the frames of %s" % name, why or (None if is_so else "%s" % first_other(*found))


def frames(folder):
    """What each still frame of a folder shows."""
    for name in sorted(os.listdir(folder)) if os.path.isdir(folder) else []:
        with open("%s/%s" % (folder, name), encoding="utf-8") as file:
            yield shown(file.read())


def first_other(theirs, ours):
    """The first two of two lists that are not the same."""
    pairs = [(one, other) for one, other in zip(theirs, ours) if one != other]
    return "%d frames and %d; %s" % (len(theirs), len(ours), " beside ".join(pairs[0])[:3000] if pairs else "")


def thefuck_cases(room, folders):
    """What it reads of a shell's log: the screen after a command."""
    output = "git: 'brnch' is not a git command.\r\n10%\r20%\r\n\x1b[31mThe most similar command is\x1b[m\r\n\tbranch\r\n\u6f22\u5b57\x1b[K\r\n"
    text = "%s$ git status\r\nclean\r\n%s$ git brnch\r\n%s%s$ " % (MARK, MARK, output, MARK)
    with open(room + "/log", "wb") as file:
        file.write(text.encode().ljust(LOG_BYTES, b"\0"))
    known = {"THEFUCK_OUTPUT_LOG": room + "/log", "PS1": MARK + "$ ", "HOME": room, "TF_SHELL": "bash", "COLUMNS": "60"}
    # (pyte leaves out what is printed right after a zero width space, which begins the prompt)
    prompt = b"$ git brnch".ljust(60) + b"\n"
    yield both("thefuck: what a command wrote", folders, "-c", READ_LOG, "git brnch", before=prompt, **known)


def example_cases(room, folders):
    """Those of pyte that need nothing else."""
    yield both("pyte's helloworld.py", folders, "helloworld.py")
    yield both("pyte's history.py", folders, "-c", SEEDED, given=b"\n\n\n")
    with open(room + "/text", "w", encoding="utf-8") as file:
        file.writelines("line %d, \u00e4\u6f22\t|\n" % it for it in range(100))
    for words in (["/usr/bin/less", room + "/text"], ["/usr/bin/vim", "-n", "-N", "-u", "NONE", room + "/text"]):
        if os.path.exists(words[0]):
            # (it ends where a program has written nothing for a second, as one that has no turn yet)
            yield both("pyte's nanoterm.py: %s" % " ".join(map(os.path.basename, words)), folders, "nanoterm.py", *words, tries=5)
        else:
            yield needs.left_out(words[0])


PROGRAMS = {"termtosvg": ("/usr/share/termtosvg", termtosvg_cases), "thefuck": ("/usr/share/thefuck", thefuck_cases)}
PROGRAMS["pyte's examples"] = (SOURCES + "/examples", example_cases)


def cases():
    for name, (folder, of_program) in PROGRAMS.items():
        if not os.path.exists(folder):
            yield needs.left_out(name)
            continue
        with tempfile.TemporaryDirectory() as room:
            count = changed(folder, room + "/changed")
            yield "%s: lines that import pyte" % name, None if count else "there are none"
            yield from of_program(room, [folder, room + "/changed"])
