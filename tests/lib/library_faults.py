"""What tests/library tries of the examples where a write or a read fails, where their words are wrong, and where they have to wait."""

import errno
import os
import select
import signal
import subprocess

from lib.library_shared import *

WRONG_WORDS = [["0"], ["x"], [""], ["7x"], ["-1"], ["4097"], ["9" * 40], ["1", "2"]]
WANTED = {"page": html_of, "safe": safe_of, "filter": text_of}  # what each example writes


def fault_cases(name, path):
    """The filter where a write or a read fails, where its words are wrong, and where it has to wait."""
    for text in (b"text\n", b"text"):
        with open("/dev/full", "wb") as full:
            done = run([path], text, stdout=full)
        why = ended_otherwise(done, 1, said_of(name, "write", errno.ENOSPC))
        yield "%s: %r and a full disk are status 1, and it says so" % (name, text), why
    for way, restores in [("", True), (" that no signal tells", False)]:
        done = run_into_closed_pipe(path, restores)
        is_killed = restores and "Rust" not in name  # (Rust ignores the signal)
        said = b"" if is_killed else said_of(name, "write", errno.EPIPE)
        yield "%s: a closed pipe%s ends it" % (name, way), ended_otherwise(done, -signal.SIGPIPE if is_killed else 1, said)
    done = run(["sh", "-c", 'exec "$0" < /', path])
    why = ended_otherwise(done, 1, said_of(name, "read", errno.EISDIR)) or (done.stdout and "it wrote %r" % done.stdout)
    yield "%s: a folder as input is status 1, and it says so" % name, why
    for words in WRONG_WORDS:
        done = run([path, *words], b"text\n")
        usage = b"usage: %s [BYTES]     BYTES is 1 to 4096\n" % program_of(name).encode()
        why = ended_otherwise(done, 2, usage) or (done.stdout and "it wrote %r" % done.stdout)
        yield "%s: the words %r are status 2, and it says so" % (name, words), why
    yield "%s: what comes is handed on at once" % name, waits(path, name.startswith("page"))
    if name.startswith("page"):
        yield "%s: what ends it is lost, which is status 1, and it says so" % name, end_is_lost(name, path)


def program_of(name):
    """The example that is tried under this name."""
    return name.split()[0] if name.split()[0] in WANTED else "filter"


def said_of(name, what, number):
    """What an example says of a fault, by the words of the C library for its number."""
    why = os.strerror(number).encode()
    if "Rust" in name:
        return b"%s: %s (os error %d)\n" % (program_of(name).encode(), why, number)
    return b"%s: %s failed: %s\n" % (program_of(name).encode(), what.encode(), why)


def ended_otherwise(done, status, said):
    """Says how it did not end with a status and these words, or answers None."""
    if done.returncode != status:
        return "status %d" % done.returncode
    return None if done.stderr == said else "it says %r, and not %r" % (done.stderr, said)


def end_is_lost(name, path):
    """How a converter ends otherwise than it should whose output is closed before the end is written."""
    pipes = {"stdin": subprocess.PIPE, "stdout": subprocess.PIPE, "stderr": subprocess.PIPE}
    with subprocess.Popen([path], restore_signals=False, **pipes) as process:
        process.stdin.write(b"\x1b[1mx")
        process.stdin.flush()
        shown = b""
        while not shown.endswith(b"x"):
            some = os.read(process.stdout.fileno(), 4096)
            if not some:
                return "it wrote %r" % shown
            shown += some
        process.stdout.close()
        process.stdin.close()
        said = process.stderr.read()
    done = subprocess.CompletedProcess(path, process.returncode, b"", said)
    return ended_otherwise(done, 1, said_of(name, "write", errno.EPIPE))


def run_into_closed_pipe(path, restores):
    """Runs a filter whose output nobody reads, with the signal for it or (where it does not restore) without."""
    reads, writes = os.pipe()
    os.close(reads)
    try:
        return run([path], b"text\n" * 100_000, stdout=writes, restore_signals=restores)
    finally:
        os.close(writes)


def waits(path, is_page):
    """Says what is not handed on of parts of lines, each before the next is given."""
    with subprocess.Popen([path], stdin=subprocess.PIPE, stdout=subprocess.PIPE, bufsize=0) as running:
        lines = [(b"\x1b[1mone", b"one"), (b" line\x1b[0m\n", b" line\n")]
        if is_page:
            lines = [(lines[0][0], b'<span style="font-weight:bold;">one'), (lines[1][0], b" line</span>\n")]
        for given, wanted in [*lines, (b"\xe2\x82", b""), (b"\xac", b"\xe2\x82\xac")]:
            running.stdin.write(given)
            found = b""
            while len(found) < len(wanted):
                if not select.select([running.stdout], [], [], PATIENCE / 6)[0]:
                    running.kill()
                    return "of %r nothing came but %r" % (given, found)
                found += os.read(running.stdout.fileno(), 4096)
            if found != wanted:
                running.kill()
                return "of %r came %r" % (given, found)
        running.stdin.close()
        try:
            return None if running.wait(PATIENCE) == 0 else "status %d" % running.returncode
        except subprocess.TimeoutExpired:
            running.kill()
            return "it does not end"
