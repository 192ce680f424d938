#!/usr/bin/env python3
"""Tries all that users see, without waiting for proofs: what `make test` is.

Usage: tests/try_all.py [--help] [--but SCRIPT].. SCRIPT ..    in the folder at the top
       tests/try_all.py --first

    --but SCRIPT   a script of this folder that is not run
    SCRIPT         one that is run, beside the others, once all is built and the crates' own tests have passed
    --first        builds, in this folder, and tries the tests of the crates: what runs first in the copy

All goes on in a copy, so that nothing unproved gets into crates/*/out. What `make` has built from these sources, proved, is taken into it; what
it has not is built without a proof (tests/unproved.py). The tests of the crates run by `rt try --test`.
The last line is 'N passed, M failed', of all.
"""

import concurrent.futures
import fnmatch
import os
import re
import shutil
import subprocess
import sys
import tempfile

sys.dont_write_bytecode = True

from lib.stand_ins import put_command

ROOT = os.path.dirname(os.path.dirname(os.path.realpath(__file__)))
BUILT = [*("crates/{0}/out/{0}".format(it) for it in ("ansi2html", "ansi2text", "ansi2screen", "ansi2svg", "parselog"))]
BUILT += ["crates/ansi_screen_c/out/libansi_screen.a", "crates/ansi/out/libansi.a"]
# what is built, by the names of files anywhere, or by their paths
UNCOPIED = ["out", "__pycache__", "target", "*.egg-info", "*.so", "*.so.*", "*.h.*", "*.css.*"]
UNCOPIED_AT = ["dist", "bindings/python/build", "bindings/python/dist"]
PASSED = re.compile(r"(?m)^test result: \w+\. (\d+) passed; (\d+) failed;")


def copied(to):
    """Copies what is not built, and of the latter what make finds proved and new."""

    def unwanted(folder, names):
        at = lambda it: os.path.relpath(os.path.join(folder, it), ROOT)
        return [it for it in names if at(it) in UNCOPIED_AT or any(fnmatch.fnmatch(it, one) for one in UNCOPIED)]

    shutil.copytree(ROOT, to, symlinks=True, ignore=unwanted)
    for path in BUILT:
        if os.path.exists("%s/%s" % (ROOT, path)) and not subprocess.run(["make", "-s", "-q", path], cwd=ROOT).returncode:
            os.makedirs(os.path.dirname("%s/%s" % (to, path)), exist_ok=True)
            shutil.copy("%s/%s" % (ROOT, path), "%s/%s" % (to, path))
            print("taken as it is built and proved: %s" % path, flush=True)


def built(path):
    """Builds one thing, in the place of which make finds nothing to do."""
    done = subprocess.run(["make", path], stdout=subprocess.PIPE, stderr=subprocess.STDOUT)
    return path, [], done.returncode, done.stdout.decode(errors="replace")


def tried(name):
    """Runs the tests of a crate, before any proof. Each has five minutes: the checks are slow."""
    done = subprocess.run(["rt", "try", "--test", "--seconds", "300"], cwd="crates/" + name, stdin=subprocess.DEVNULL, stdout=subprocess.PIPE, stderr=subprocess.STDOUT)
    text = done.stdout.decode(errors="replace")
    return "the tests of " + name, [tuple(map(int, it)) for it in PASSED.findall(text)], done.returncode, text


def crates_with_tests():
    found = []
    for folder, _, names in os.walk("crates"):
        sources = (os.path.join(folder, it) for it in names if it.endswith(".rt"))
        found += [folder.split("/")[1] for it in sources if "#[test]" in open(it, encoding="utf-8").read()]
    return sorted(set(found))


def first():
    """Builds, and runs the crates' own tests: as many at once as there are processors."""
    passed = failed = 0
    with concurrent.futures.ThreadPoolExecutor(len(os.sched_getaffinity(0))) as pool:
        works = [pool.submit(built, it) for it in BUILT] + [pool.submit(tried, it) for it in crates_with_tests()]
        for work in concurrent.futures.as_completed(works):
            what, counts, status, text = work.result()
            good, bad = (sum(it) for it in zip(*counts)) if counts else (int(not status), 0)
            bad += bool(status and not bad)
            passed, failed = passed + good, failed + bad
            print("%s%s" % (text if bad else "", "FAILED  %s" % what if bad else "passed  %s: %d" % (what, good)), flush=True)
    print("%d passed, %d failed" % (passed, failed))
    return 1 if failed or not passed else 0


def main(words):
    if words == ["--first"]:
        return first()
    if not words or words == ["--help"]:
        print(__doc__.strip(), file=sys.stdout if words else sys.stderr)
        return 0 if words else 2
    rt = os.path.realpath(shutil.which("rt"))
    with tempfile.TemporaryDirectory() as room:
        copy = room + "/copy"
        copied(copy)
        # (make asks where rt is, and takes a part of the kit from there)
        os.makedirs(room + "/kit/bin")
        os.symlink(os.path.dirname(os.path.dirname(rt)) + "/c", room + "/kit/c")
        put_command(room + "/kit/bin/rt", 'exec "%s" "%s/tests/unproved.py" "%s" "$@"' % (sys.executable, copy, rt))
        known = {**os.environ, "PATH": "%s/kit/bin:%s" % (room, os.environ["PATH"]), "UNPROVED": "true"}
        command = '"%s" tests/try_all.py --first' % sys.executable
        return subprocess.run([sys.executable, "tests/side_by_side.py", command, *words], cwd=copy, env=known).returncode


if __name__ == "__main__":
    sys.exit(main(sys.argv[1:]))
