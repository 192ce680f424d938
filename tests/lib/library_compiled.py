"""The events of the Python package, made in C and in Python: cases of tests/library_python."""

import collections
import gc
import importlib
import itertools
import os
import random
import re
import resource
import shutil
import signal
import subprocess
import sys
import threading
import time
import tracemalloc
import weakref
from functools import partial

from lib import needs
from lib.library_events import alike, pieces, python_event_cases, same_events
from lib.library_shared import *

NAME = "_events.abi3.so"
OFTEN = b"\x1b\x1b\x1b[[[]P\\;;;::0123456789m?$ \x07\x18\n\x9c\xc2\xe2\x82\xac\xf0\x9faq"
STREAMS = 30_000


def extension_cases(room):
    """Makes two packages in the room, one with the extension beside it and one without; says whether it is built."""
    for name in ("compiled", "pure"):
        copy_unbuilt("%s/ansi_proved" % PYTHON, "%s/%s" % (room, name))
    path = "%s/compiled/%s" % (room, NAME)
    done = run(["make", "-C", ROOT, "PYTHON=" + sys.executable, "EXTENSION=" + path, path])
    if not os.path.exists(path):
        yield left_out("Python: the extension")
        return
    yield "Python: the extension is built by make", failure(done)
    asked = [sys.executable, "-c", "import sysconfig; print(sysconfig.get_path('include'))"]
    headers = run(asked).stdout.decode().strip()
    for cc in ("gcc", "clang"):
        command = [cc, "-std=c99", "-pedantic", "-O2", *WARNINGS, "-isystem", headers, "-fPIC", "-shared"]
        if not shutil.which(cc):
            yield left_out("Python: the extension by " + cc)
            continue
        done = run([*command, "%s/ansi_proved/_events.c" % PYTHON, "-o", room + "/warned.so"])
        yield "Python: the extension is compiled by %s with no warning" % cc, failure(done)
    yield from place_cases(room, path)


def place_cases(room, path):
    """That what is no extension leads to events all the same."""
    for name in ("beside", "empty", "library"):
        shutil.copytree(room + "/pure", "%s/%s/ansi_proved" % (room, name))
    shutil.copy(path, room + "/beside/ansi_proved")
    open("%s/empty/ansi_proved/%s" % (room, NAME), "w").close()
    shutil.copy(os.environ["ANSI_LIBRARY"], "%s/library/ansi_proved/%s" % (room, NAME))
    code = "import ansi_proved as ansi; print(ansi.event.IS_COMPILED, list(ansi.events('\\x1b[1mA')) == [(((1,),), '', False, 'm'), ('A',)])"
    screen = "%s/crates/ansi_screen_c/out/libansi_screen.so" % ROOT
    for folder, wanted in [("beside", b"True True\n"), ("empty", b"False True\n"), ("library", b"False True\n")]:
        known = dict(os.environ, PYTHONPATH="%s/%s" % (room, folder), PYTHONDONTWRITEBYTECODE="1", ANSI_SCREEN_LIBRARY=screen)
        done = run([sys.executable, "-c", code], env=known, cwd=room)
        why = failure(done) or (None if done.stdout == wanted else "it writes %r" % done.stdout)
        yield "Python: the package of %s, with or without the extension" % folder, why
        if folder != "library":
            for what in ("streams", "screen"):
                done = run([sys.executable, "%s/tests/callers/shared.py" % ROOT, what], patience=10 * PATIENCE, env=known)
                yield "Python: eight threads share %s, %s" % (what, folder), failure(done)
    yield from valgrind_cases(room + "/beside")


def valgrind_cases(folder):
    """The extension by valgrind: no memory that is not its own, and none that it does not give back."""
    if not shutil.which("valgrind"):
        yield needs.left_out("Python: valgrind")
        return
    known = dict(os.environ, PYTHONPATH=folder, PYTHONDONTWRITEBYTECODE="1", PYTHONMALLOC="malloc")
    words = ["valgrind", "--leak-check=full", "--show-leak-kinds=definite", sys.executable, "%s/tests/callers/extension.py" % ROOT, "20"]
    done = run(words, patience=20 * PATIENCE, env=known)
    yield "Python: the extension by valgrind", failure(done)
    # (what it says of the interpreter itself is not looked at)
    records = re.split(r"(?m)^==\d+== \n", done.stderr.decode(errors="replace"))
    wrong = [it for it in records if "_events" in it]
    yield "Python: valgrind finds no wrong byte there, and none that is lost", "%d, the first %s" % (len(wrong), wrong[0][:900]) if wrong else None
    yield "Python: and it has looked", None if any("HEAP SUMMARY" in it for it in records) else "it says %r" % done.stderr[-300:]


def all_cases(room, name):
    """All cases of events over one of the packages."""
    sys.path.insert(0, room)
    ansi = importlib.import_module(name)
    is_well = ansi.event.IS_COMPILED == (name == "compiled")
    yield "Python: events are %s" % name, None if is_well else "they are not"
    parts = [python_event_cases, caller_cases, signal_cases, awaited_cases, busy_cases, memory_cases, kept_memory_cases, thread_cases, short_cases]
    for case in itertools.chain.from_iterable(part(ansi) for part in parts):
        yield "%s, %s" % (case[0], name), case[1]


def shown(events):
    return [(type(it).__name__, tuple(it)) for it in events]


def both_cases(room):
    """Equal events of both packages, with texts cut alike: of all streams, and of many that break what can be broken."""
    sys.path.insert(0, room)
    compiled, pure = map(importlib.import_module, ("compiled", "pure"))
    pick = random.Random(24)
    rows = [(repr(given), given) for given, _ in alike(pure)]
    for kind, stream in itertools.chain(streams(), rows):
        cuts = [stream, pieces(stream, 1), pieces(stream, 4097)]
        cuts += [[it for one in pieces(stream, 20_000) for it in pieces(one, pick.randint(1, 20_000))] for _ in range(3)]
        wrong = next((at for at, it in enumerate(cuts) if shown(compiled.events(it)) != shown(pure.events(it))), None)
        yield "Python: events of %s are the same, compiled or not" % kind, None if wrong is None else "not of cut %d" % wrong
    wrong = None
    for _ in range(STREAMS):
        stream = bytes(pick.choices(OFTEN, k=pick.randint(1, 120)))
        given = pick.choice([stream, [stream], pieces(stream, pick.randint(1, 40))])
        if shown(compiled.events(given)) != shown(pure.events(given)):
            wrong = "not of %r" % (given,)
            break
    yield "Python: events of %d hostile streams are the same, compiled or not" % STREAMS, wrong
    for kind in ("bytes", "every text"):
        stream = bytes(range(256)) * 40 if kind == "bytes" else "".join(map(chr, range(0xA0, 0x3000))).encode()
        yield "Python: events of %s, twice" % kind, same_events(*(shown(it.events(stream * 2)) for it in (compiled, pure)))


def caller_cases(ansi):
    """Callers that fail, that ask for events inside of their own pieces, and that go away."""

    def failing():
        yield b"a\x1b[1m"
        raise KeyError("no more")

    events, found = ansi.events(failing()), []
    try:
        found.extend(iter(lambda: next(events), None))
    except KeyError:
        found = list(found) + ["KeyError", *events, *events]
    yield "Python: after an error of the caller's stream no event comes", None if found[-1:] == ["KeyError"] else "%r" % found
    events = ansi.events([b"a", 5, b"b"])
    found = [next(events)]
    try:
        next(events)
    except TypeError:
        found += ["TypeError", *events]
    yield "Python: after a wrong piece no event comes", None if found == [("a",), "TypeError"] else "%r" % found
    asked = []

    def asking():
        yield b"a"
        try:
            asked.append(next(events))
        except ValueError as error:
            asked.append(str(error))
        yield b"b"

    events = ansi.events(asking())
    found = list(events) + list(events)
    is_well = found == [("a",), ("b",)] and len(asked) == 1 and "already executing" in str(asked[0])
    yield "Python: to ask for an event inside of the pieces is a ValueError", None if is_well else "%r %r" % (found, asked)
    left, told = [b"b", b"a"], []

    class Asking:  # (a generator would refuse by itself)
        def __iter__(self):
            return self

        def __next__(self):
            try:
                told.append(next(events))
            except ValueError as error:
                told.append(str(error))
            if not left:
                raise StopIteration
            return left.pop()

    events = ansi.events(Asking())
    found = list(itertools.islice(events, 1))
    is_well = found == [("a",)] and len(told) == 1 and "already executing" in str(told[0])
    yield "Python: nor inside of pieces of a class", None if is_well else "%r %r" % (found, told[:3])
    closed = []

    def closing():
        try:
            yield b"a\n" * 10
            yield b"b\n"
        finally:
            closed.append(1)

    events = ansi.events(closing())
    next(events)
    del events
    yield "Python: events that are left let go of their pieces", None if closed == [1] else "they hold them"

    class Holder:
        pass

    holder = Holder()
    gone = weakref.ref(holder)

    def held(holder):
        yield b"a\nb"
        yield holder

    holder.events = ansi.events(held(holder))
    next(holder.events)
    del holder
    gc.collect()
    yield "Python: events in a cycle are collected", None if gone() is None else "they are not"
    piece = b"a\nb\n" * 100
    counts = sys.getrefcount(piece), sys.getrefcount(ansi.event.Text)
    for given in ([piece] * 50, [piece, b"", piece], [piece, 5]):
        for most in (1, 3, 100_000):
            try:
                collections.deque(itertools.islice(ansi.events(given), most), 0)
            except TypeError:
                pass
    del given
    found = sys.getrefcount(piece), sys.getrefcount(ansi.event.Text)
    yield "Python: a piece is let go of", None if found == counts else "%r, and not %r" % (found, counts)
    several = [ansi.events(b"\x1b[%dmA" % at) for at in range(3)]
    found = [list(it) for it in several[::-1]]
    yield "Python: each has its own", None if [it[0][0] for it in found] == [((2,),), ((1,),), ((0,),)] else "%r" % found


# Streams of one kind of event each, with how many one has.
KINDS = {
    "Text": b"a\xe2\x82\xacb\x1b[m",
    "Execute": b"\n",
    "Put": b"\x1bPq" + b"x" * 100 + b"\x1b\\",
    "Osc": b"\x1b]0;title;x\x07",
    "Csi": b"\x1b[38:2:300:4;1000 q",
    "Esc": b"\x1b(B",
    "Hook": b"\x1bP1000;2:3$q\x1b\\",
}


def signal_cases(ansi):
    """A signal that comes within one large piece, which leads to no event."""
    piece = b"\x1b[" + b"1;" * 80_000_000
    started = time.monotonic()
    collections.deque(ansi.events([piece]), 0)
    whole = time.monotonic() - started
    was = signal.signal(signal.SIGALRM, interrupted)
    signal.setitimer(signal.ITIMER_REAL, whole / 8)
    started = time.monotonic()
    try:
        collections.deque(ansi.events([piece]), 0)
        why = "it is not handled"
    except InterruptedError:
        took = time.monotonic() - started
        why = None if took < whole / 2 else "after %.2f s of %.2f" % (took, whole)
    finally:
        signal.setitimer(signal.ITIMER_REAL, 0)
        signal.signal(signal.SIGALRM, was)
    yield "Python: a signal is handled within a piece", why


def awaited_cases(ansi):
    """A signal that comes while one thread waits for another one, which is at work on the same events or parts."""
    for name, call in ("events", ansi.events), ("text_of", ansi.text_of):
        gate, found = threading.Event(), []

        def given():
            gate.wait(60)
            yield b"a"

        shared = call(given())
        other = threading.Thread(target=lambda: found.extend(shared))
        other.start()
        time.sleep(0.1)
        was = signal.signal(signal.SIGALRM, interrupted)
        signal.setitimer(signal.ITIMER_REAL, 0.2)
        try:
            next(shared)
            why = "it is not handled"
        except InterruptedError:
            why = "the other thread is at its end" if gate.is_set() or not other.is_alive() else None
        finally:
            signal.setitimer(signal.ITIMER_REAL, 0)
            signal.signal(signal.SIGALRM, was)
            gate.set()
            other.join()
        yield "Python: a signal is handled while %s of another thread are awaited" % name, why
        is_so = [it if type(it) is bytes else it.text.encode() for it in found] == [b"a"]
        yield "Python: and the other thread goes on, %s" % name, None if is_so else "it has %r" % found


def busy_cases(ansi):
    """A long call, within which another thread goes on: of events that come to nothing, and of wholes."""
    large = b"\x1b[" + b"1;" * 40_000_000
    calls = {"events": lambda: collections.deque(ansi.events([large]), 0), "strip": lambda: ansi.strip(large)}
    for name, call in {**calls, "to_html": lambda: ansi.to_html(large)}.items():
        counted, took = ticks_during(call)
        is_so = took > 30 and counted > took / 20
        yield "Python: another thread goes on in a long %s" % name, None if is_so else "it has %d turns in %d ms" % (counted, took)


def short_cases(ansi):
    """Short wholes, which go through one another's memory: each as the same in a piece of a stream, of a str as of bytes."""
    pick, wrong = random.Random(72), []
    calls = [(ansi.strip, ansi.text_of), (lambda it: ansi.strip(it, safe=True), lambda it: ansi.text_of(it, safe=True))]
    calls += [(partial(ansi.to_html, styling=it), partial(ansi.html_of, styling=it)) for it in ansi.STYLINGS]
    for _ in range(3000):
        stream = bytes(pick.choices(OFTEN + b"<&8http://a", k=pick.choice([0, 1, 5, 40, 1023, 1024, 1025])))
        text = stream.decode("utf-8", "surrogateescape") if pick.random() < 0.5 else stream.decode("utf-8", "replace")
        for whole, in_parts in calls:
            of_text = b"".join(in_parts([utf8(text)])).decode()
            if whole(stream) != b"".join(in_parts([stream])) or whole(text) != of_text or type(whole(text)) is not str:
                wrong.append(stream)
    yield "Python: short wholes are as in a stream", "not %r" % wrong[0] if wrong else None
    gc.collect()
    before = sys.getallocatedblocks()
    for _ in range(2000):
        for whole, _ in calls:
            whole("\x1b[1mred"), whole(b"\x1b[1mred"), whole("clean")
    grown = sys.getallocatedblocks() - before
    yield "Python: short wholes leave no object behind", "%d" % grown if grown > 100 else None


def interrupted(_signal, _frame):
    raise InterruptedError("a signal came")


def memory_cases(ansi):
    """Many events of each kind: no memory that stays, and no reference that is kept or lost."""
    counted = [getattr(ansi, it) for it in ("Text", "Csi", "Osc", "Esc", "Hook", "Put", "Unhook", "Execute")]
    counted += [None, True, False, (), "", b"", 1, "m", "q", "x", *ansi.event.PUTS[120:122]]
    counted.append(type(ansi.events([])))
    many = 400_000 if ansi.event.IS_COMPILED else 100_000  # (bytes: Python takes long, and counts its references itself)
    for kind, one in KINDS.items():
        stream = one * (many // len(one))
        for given in (stream, pieces(stream, 1000)):
            collections.deque(ansi.events(given), 0)
        gc.collect()
        before = resource.getrusage(resource.RUSAGE_SELF).ru_maxrss
        counts = [sys.getrefcount(it) for it in counted]
        for given in (stream, pieces(stream, 1000), stream, pieces(stream, 1000)):
            collections.deque(ansi.events(given), 0)
            for _ in range(2000):
                next(ansi.events(one))
        del given
        gc.collect()
        blocks = sys.getallocatedblocks()
        collections.deque(ansi.events(stream), 0)
        gc.collect()
        blocks = sys.getallocatedblocks() - blocks
        yield "Python: many events of %s leave no object behind" % kind, "%d" % blocks if blocks > 300 else None
        grown = resource.getrusage(resource.RUSAGE_SELF).ru_maxrss - before
        wrong = [repr(it) for it, was in zip(counted, counts) if abs(sys.getrefcount(it) - was) > 100]
        yield "Python: many events of %s leave every count of references as it was" % kind, ", ".join(wrong)[:300] or None
        yield "Python: many events of %s take no memory that stays" % kind, "%d kB" % grown if grown > 5000 else None


def kept_memory_cases(ansi):
    """A stream of long events, each another: what it keeps to give again are short ones alone."""
    titles = (b"\x1b]0;%01000d\x07" % at for at in range(5000))
    tracemalloc.start()
    collections.deque(ansi.events(titles), 0)
    _, most = tracemalloc.get_traced_memory()
    tracemalloc.stop()
    yield "Python: of long events none is kept", "%d kB at once" % (most >> 10) if most > 2 << 20 else None


def thread_cases(ansi):
    """Eight threads with events of their own, and four over the same."""
    stream = b"a\x1b[1;2mb\x1bPqxy\x1b\\\n" * 3000
    wanted, wrong = list(ansi.events(stream)), []

    def own():
        wrong.extend([1] if list(ansi.events(pieces(stream, len(stream) // 20 * 20))) != wanted else [])

    def in_threads(actions):
        threads = [threading.Thread(target=it) for it in actions]
        [it.start() for it in threads]
        [it.join() for it in threads]

    in_threads([own] * 8)
    yield "Python: eight threads have each their own events", "some are others" if wrong else None
