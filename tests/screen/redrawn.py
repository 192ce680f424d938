#!/usr/bin/env python3
"""Compares by hand what ansi2screen --draw leaves on tmux, xterm and libvterm with the screen that was drawn: each
cell with its style, what the alternate screen covers, the cursor, its style and character set, and what else a
terminal tells. The screens are those of the definitions in Python, tests/screen/twin.py, at the end of generated
streams or of recordings; each is drawn over the one before. With --updates the stream is written to ansi2screen
--updates in pieces, each when the output of the one before has come, and the terminal is compared behind the first,
behind one other and behind the last.

Usage: tests/screen/redrawn.py [--count N] [--seed N] [--program PROGRAM] [--updates] [--plant]
                               [--on tmux,xterm,libvterm] [--size COLUMNSxROWS [RECORDING ..]]

    --count N          so many generated streams (default: 500)
    --seed N           the seed of the first (default: 1)
    --program PROGRAM  the built program (default: crates/ansi2screen/out/ansi2screen)
    --updates          updates in place of drawings
    --plant            leaves one sequence, character or control out of each output, and counts what fails, by what
                       was left out: what says again what is so already is not noticed
    --on TERMINALS     of these three (default: all)
    --size .. RECORDING ..  a size, and files with the bytes of streams that were made for it (default: 20x6)

A stream is compared by the program's output alone, so that it counts for nothing where a terminal reads the stream
otherwise than the definitions do. The main screen is gone back to before each drawing, since the reset of tmux 3.3a
and libvterm 0.1.4 stays on the alternate one. U+200D is left out, which tmux and xterm drop.

What is not seen. tmux 3.3a: spaces in its last two columns where nothing but spaces follows, and the place that is
saved. In tmux and libvterm no wrap is pending without autowrap, where updates print too: streams for updates have
autowrap there. xterm 379 prints its screen (MC, with printAttributes): of a colour of RGB the nearest of the 256, of
hidden text spaces, and 4:3 it takes for a colour: its streams do without these, and recordings have others of the 256
for RGB. It has no line above, and spaces are as for tmux; all else it answers: the cursor and the pending wrap
(DECCIR), sets, tabs (DECTABSR), margins and modes. libvterm 0.1.4 tells cells and the cursor, a pending wrap as the
last character; it has no dim, hidden or overlined text, shows named colours as those of the 256, and more than 16
fields in a sequence, which all attributes and two colours have together, are a memory fault there: its streams do
without these. A screen with marks in the last column is left out there, since it moves on for them.

Each difference is told with the least operations of its stream that show it, and how many cells were compared. The
last line is 'N passed, M failed'.
"""

import argparse
import collections
import fcntl
import os
import random
import re
import subprocess
import sys
import tempfile
import termios
import time

sys.dont_write_bytecode = True

import streams
import terminals
import twin

ROOT = os.path.dirname(os.path.dirname(os.path.dirname(os.path.realpath(__file__))))
LEAVE = b"\x1b[?1049l"  # back to the main screen
COMMAND, STRING = r"\x1b\][^\x07\x1b]*(?:\x07|\x1b\\)", r"\x1bP[^\x1b]*\x1b\\"
OPERATION = re.compile(r"\x1b\[[0-?]*[ -/]*[@-~]|%s|%s|\x1b[ -/]*[0-OQ-Z\\^-~]|[^\x1b]" % (COMMAND, STRING))
PIECE = 4096  # the bytes of a recording that are written at once
TRIES = 300  # how many streams are tried to find a smaller one
PATIENCE = 20  # the seconds for which a program may take a piece


class Failed(Exception):
    """The program failed, or took too long."""


def operations(data):
    """The whole operations of a stream; commands ended as the twin reads them."""
    text = data.decode(errors="ignore")
    found, at = [], 0
    while at < len(text) and (it := OPERATION.match(text, at)):
        found.append(it[0])
        at = it.end()
    return found


def screen_of(data, width, height):
    display = twin.Display(width, height)
    commands_short = ("\x1b]\x07" if it.startswith("\x1b]") else it for it in operations(data))
    twin.feed(display, "".join(commands_short).encode())
    return display


def drawing(options, data):
    """The output of --draw, as the only one."""
    words = [options.program, "--draw", "--size=" + options.size]
    done = subprocess.run(words, input=data, capture_output=True, timeout=PATIENCE)
    if done.returncode or done.stderr:
        raise Failed("status %d, %r" % (done.returncode, done.stderr))
    return [(data, done.stdout)]


def is_waiting(process):
    """Whether it has read all that was written, and waits for more."""
    left = int.from_bytes(fcntl.ioctl(process.stdin, termios.FIONREAD, bytes(4)), sys.byteorder)
    with open("/proc/%d/syscall" % process.pid) as call:
        return call.read().startswith("0 0x0 ") and not left


def output_until_it_waits(process):
    found, end = b"", time.monotonic() + PATIENCE
    while not is_waiting(process):
        if process.poll() is not None or time.monotonic() > end:
            raise Failed("status %s" % process.poll())
        found += process.stdout.read() or b""
        time.sleep(0.0002)
    return found + (process.stdout.read() or b"")


def updates(options, data, cuts):
    """What is read until each cut, with all output until then."""
    pipes = {"stdin": subprocess.PIPE, "stdout": subprocess.PIPE, "stderr": subprocess.PIPE, "bufsize": 0}
    found, output = [], b""
    with subprocess.Popen([options.program, "--updates", "--size=" + options.size], **pipes) as process:
        os.set_blocking(process.stdout.fileno(), False)
        for start, end in zip([0, *cuts], [*cuts, len(data)]):
            process.stdin.write(data[start:end])
            output += output_until_it_waits(process)
            found.append((data[:end], output))
        process.stdin.close()
        os.set_blocking(process.stdout.fileno(), True)
        found[-1] = data, output + process.stdout.read()
        fault = process.stderr.read()
        if process.wait() or fault:
            raise Failed("status %d, %r" % (process.returncode, fault))
    return found


def outputs(options, data, seed):
    """What is compared of a stream: what was read, and what was written until then."""
    if not options.updates:
        return drawing(options, data)
    draw = random.Random(seed)
    ends = sorted(draw.choices(range(len(data) + 1), k=draw.randint(1, 4)))
    found = updates(options, data, list(range(PIECE, len(data), PIECE)) if options.recordings else ends)
    return [found[at] for at in sorted({0, draw.randrange(len(found)), len(found) - 1})]


def planted(output, draw):
    """The output without one of its operations, and which."""
    found = operations(output)
    at = draw.randrange(len(found))
    name = re.sub(r"\d+[\d;]*", "N", found[at]) if found[at] < " " or len(found[at]) > 1 else "a character"
    return "".join(found[:at] + found[at + 1 :]).encode(), name


def difference(terminal, names):
    """The first difference of pairs of lists, where there is one; how many cells were compared, and in styles."""
    compared, styled = 0, 0
    for name, ours, theirs in names:
        for at, (one, other) in enumerate(zip(ours, theirs)):
            is_cell = name != "told" and at < terminal.width * terminal.height
            is_seen = not is_cell or one[0] != " " or other[0] != " " or is_told(terminal, ours, at)
            if is_seen and one != other:
                where = place_of(terminal, name, at)
                return "%s, %s: wanted %r, and shown is %r" % (name, where, one, other), 0, 0
            compared += is_cell and is_seen
            styled += is_cell and is_seen and one[1] != twin.styles.PLAIN
        if len(ours) != len(theirs):
            return "%s: wanted %r, and shown is %r" % (name, ours, theirs), 0, 0
    return None, compared, styled


def is_told(terminal, cells, at):
    """Whether a space is told: one with only such behind it, in the last columns, is not."""
    row_end = at - at % terminal.width + terminal.width
    return any(terminal.sees(terminal.width, it, cells[it][0]) for it in range(at, row_end))


def place_of(terminal, name, at):
    if name == "told":
        return "the value %d" % at
    row, column = divmod(at, terminal.width)
    return "the cursor's" if row == terminal.height else "row %d, column %d" % (row, column)


def compared(terminal, data, output, before):
    """The first difference of a terminal that shows an output; None, where it is not asked."""
    display = screen_of(data, terminal.width, terminal.height)
    if not terminal.is_asked(display):
        return None
    terminal.write(before + LEAVE + output)
    told, cells = terminal.told(), terminal.cells()
    found = [("told", terminal.told_of(display), told), ("cells", terminal.wanted(display), cells)]
    if display.is_alternate:
        terminal.write(LEAVE)
        twin.feed(display, LEAVE)
        found.append(("main screen", terminal.wanted(display)[:-1], terminal.cells()[:-1]))
    return difference(terminal, found)


def fault_of(options, terminal, data, seed, before, counts):
    """What differs of a stream."""
    fault = None
    try:
        for read, output in outputs(options, data, seed):
            planted_name = ""
            if options.plant:
                output, planted_name = planted(output, random.Random(seed))
            found = compared(terminal, read, output, before)
            counts["left out" if found is None else "screens"] += 1
            if found:
                fault, cells, styled = found
                counts["cells"] += cells
                counts["cells with styles"] += styled
            if options.plant and found:
                counts["%r left out: %s" % (planted_name, "noticed" if fault else "no difference")] += 1
            if fault:
                return "behind %d bytes, %s" % (len(read), fault)
    except Failed as failed:
        fault = str(failed)
    return fault


def smallest(options, terminal, data, seed):
    """A stream that differs too, of which no operation can be left out."""
    pieces, at, tries = operations(data), 0, 0
    while at < len(pieces) and tries < TRIES:
        fewer, tries = pieces[:at] + pieces[at + 1 :], tries + 1
        if fault_of(options, terminal, "".join(fewer).encode(), seed, b"\x1bc", collections.Counter()):
            pieces = fewer
        else:
            at += 1
    return "".join(pieces).encode()


def inputs(options, terminal):
    """The streams, each with its name and a seed."""
    for path in options.recordings:
        with open(path, "rb") as recording:
            yield path, terminal.given(recording.read().replace("\u200d".encode(), b"")), options.seed
    if not options.recordings:
        for seed in range(options.seed, options.seed + options.count):
            data = streams.varied(random.Random(seed), terminal.codes).replace("\u200d", "").encode()
            if options.updates and terminal.keeps_autowrap:
                data = re.sub(rb"\x1b\[\?(6;)?7l", b"", data)
            yield "stream %d" % seed, data, seed


def run_on(options, terminal):
    counts, faults, before, passed = collections.Counter(), 0, b"", 0
    for name, data, seed in inputs(options, terminal):
        fault = fault_of(options, terminal, data, seed, before, counts)
        passed, faults = passed + (not fault), faults + bool(fault)
        if fault and not options.plant:
            least = data if options.recordings else smallest(options, terminal, data, seed)
            again = fault_of(options, terminal, least, seed, b"\x1bc", collections.Counter())
            print("%s: %s\n    %s\n    of %r" % (name, fault, again, least[-2000:]), flush=True)
        # (DSR asks for an answer, and REP can hang libvterm)
        before = re.sub(rb"\x1b\[[\d;]*[bn]", b"", b"" if options.recordings else data)
    return passed, faults, counts


def main():
    reader = argparse.ArgumentParser(usage=__doc__.split("Usage: ")[1].split("\n\n")[0], description=__doc__)
    reader.add_argument("--count", type=int, default=500)
    reader.add_argument("--seed", type=int, default=1)
    reader.add_argument("--program", default=os.path.join(ROOT, "crates", "ansi2screen", "out", "ansi2screen"))
    reader.add_argument("--updates", action="store_true")
    reader.add_argument("--plant", action="store_true")
    reader.add_argument("--on", default=",".join(terminals.KINDS))
    reader.add_argument("--size", default="20x6")
    reader.add_argument("recordings", nargs="*")
    options = reader.parse_args()
    passed = failed = 0
    for name in options.on.split(","):
        with tempfile.TemporaryDirectory() as folder:
            terminal = terminals.KINDS[name](folder, *map(int, options.size.split("x")))
            try:
                fine, faults, counts = run_on(options, terminal)
            finally:
                terminal.end()
        print("%s: %s" % (name, ", ".join("%s %d" % it for it in sorted(counts.items()))), flush=True)
        if not counts["cells with styles"]:
            print("%s: no cell with a style was compared" % name)
        passed, failed = passed + fine, failed + faults + (not counts["cells with styles"])
    print("%d passed, %d failed" % (passed, failed))
    return 1 if failed else 0


if __name__ == "__main__":
    sys.exit(main())
