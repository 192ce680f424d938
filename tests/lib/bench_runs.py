"""What bench/run says of two checkouts, of whose programs others stand in the place: of tests/documents. It has to run both, each in its
own folder, as often as it is asked to, and to stop where one fails or they write otherwise."""

import os
import re
import subprocess
import sys
import tempfile

from lib.stand_ins import put_command

ROOT = os.path.dirname(os.path.dirname(os.path.dirname(os.path.realpath(__file__))))
TURNS = 3


def workloads():
    """The name, the crate and the words of each."""
    with open(os.path.join(ROOT, "bench/workloads.txt"), encoding="utf-8") as file:
        return [line.split() for line in file if line.strip()]


def ran(room, old, new, *words):
    """Runs it over two checkouts whose programs are these commands, of a shell."""
    for name, command in ("old", old), ("new", new):
        for folder in ["bench", *("crates/%s/out" % crate for _, crate, *_ in workloads())]:
            os.makedirs("%s/%s/%s" % (room, name, folder), exist_ok=True)
        for _, crate, *_ in workloads():
            told = 'echo "$PWD $*" >> %s/told' % room
            put_command("%s/%s/crates/%s/out/%s" % (room, name, crate, crate), told, command)
    command = [sys.executable, ROOT + "/bench/run", "--turns", str(TURNS), *words, room + "/old", room + "/new", "77"]
    done = subprocess.run(command, stdin=subprocess.DEVNULL, capture_output=True, text=True, timeout=60)
    with open(room + "/told", encoding="utf-8") as file:
        told = file.read().splitlines()
    os.remove(room + "/told")
    return done, told


def cases():
    names = [name for name, *_ in workloads()]
    with tempfile.TemporaryDirectory() as room:
        room = os.path.realpath(room)
        done, told = ran(room, "sleep 0.2; echo same", "echo same")
        rows = re.findall(r"(?m)^\| (\w+) \| ([\d.]+) \| ([\d.]+) \| ([\d.]+) \|$", done.stdout)
        wrong = [row for row in rows if float(row[1]) < 0.2 or float(row[3]) <= 1]
        is_so = done.returncode == 0 and [row[0] for row in rows] == names and not wrong
        yield "bench/run tells of each workload what both take", not is_so and "it says %r" % (done.stdout + done.stderr)
        wanted = []
        for _, _, *words in workloads():
            words = " ".join("77" if word == "SEED" else word for word in words if not word.startswith("<"))
            wanted += TURNS * ["%s/%s/bench %s" % (room, it, words) for it in ("old", "new")]
        yield "it runs both, as often as it is asked to", sorted(told) != sorted(wanted) and "it runs %s" % told
        for name in names:
            done, _ = ran(room, "echo same", "echo other", "--only", name)
            is_so = done.returncode == 1 and done.stderr.startswith("%s: the outputs differ" % name) and "| %s " % name not in done.stdout
            yield "it stops where the outputs of %s differ" % name, not is_so and "status %d, %r" % (done.returncode, done.stdout + done.stderr)
        for old, new in ("exit 3", "exit 0"), ("exit 0", "exit 3"):
            done, _ = ran(room, old, new, "--only", names[0])
            yield "it stops where '%s' is run beside '%s'" % (old, new), (done.returncode != 1 or "status 3" not in done.stderr) and "status %d" % done.returncode
