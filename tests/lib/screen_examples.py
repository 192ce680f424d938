"""examples/screen.c; and examples/pane.c on a pseudo-terminal: what it writes is read by the screen of tests/screen/twin.py, and the
modes of the terminal and the status are looked at. A command's stream shows in the pane what the twin makes of that stream.

    screen_cases(room), pane_cases(room)    the cases of tests/screen_library
"""

import fcntl
import os
import pty
import re
import resource
import select
import signal
import struct
import subprocess
import sys
import termios
import time

from lib.library_shared import ROOT, SANITIZERS, WARNINGS, compiler, failure, left_out, run

sys.path.append("%s/tests/screen" % ROOT)
import twin

ARCHIVE = "%s/crates/ansi_screen_c/out/libansi_screen.a" % ROOT
COLUMNS, ROWS = 20, 5  # of the pane
WIDER, HIGHER = 30, 8  # the terminal that it stands in
PATIENCE, QUIET = 20, 0.2  # seconds: that something takes at most, and without a byte when all is written
BUSY = 0.15  # seconds of a processor that a pane takes at most where nothing happens for two
COOKED = termios.ICANON | termios.ECHO | termios.ISIG

ALL = range(1, 10)
STYLES = "".join("\x1b[0;%dm%d" % (code, code) for code in ALL) + "\r\n"
STYLES += "".join("\x1b[0;4:%dm%d" % (kind, kind) for kind in range(6)) + "\x1b[0;21mD\x1b[0;53mO\x1b[0;1;2;3mB\x1b[0m\r\n"
COLORS = "\x1b[31mA\x1b[0;44mB\x1b[0;95mC\x1b[0;106mD\x1b[0;38;5;7mE\x1b[0;48;5;201mF\x1b[0;38;2;1;2;3mG\x1b[0;48;2;4;5;6mH"
COLORS += "\x1b[0;32;45mI\x1b[0;93;102mJ\x1b[0;38;5;9;48;5;10mK\x1b[0;38;2;7;8;9;48;2;9;8;7mL\x1b[0m\r\n"


class Terminal:
    """A program on a pseudo-terminal of its own."""

    def __init__(self, command, columns=WIDER, rows=HIGHER):
        self.master, self.slave = pty.openpty()
        self.columns = columns
        fcntl.ioctl(self.slave, termios.TIOCSWINSZ, struct.pack("HHHH", rows, columns, 0, 0))
        self.before, self.written = termios.tcgetattr(self.slave), b""
        ends = {"stdin": self.slave, "stdout": self.slave, "stderr": subprocess.PIPE, "env": dict(os.environ, TERM="dumb")}
        # (what runs in the background of a shell ignores interrupts)
        heeds = lambda: signal.signal(signal.SIGINT, signal.SIG_DFL)
        self.program = subprocess.Popen(command, start_new_session=True, preexec_fn=heeds, **ends)

    def settle(self, is_so):
        """Reads until that is so of what shows, and nothing more is written; whether it has come to be so."""
        end = time.monotonic() + PATIENCE
        while time.monotonic() < end:
            if select.select([self.master], [], [], QUIET)[0]:
                self.written += os.read(self.master, 65536)
            elif is_so(self.shown()):
                return True
        return False

    def shown(self):
        """The screen that shows what was written, over what stood there before."""
        display = twin.Display(self.columns, HIGHER)
        twin.feed(display, b"before" * WIDER * HIGHER)
        twin.feed(display, self.written.decode(errors="ignore").encode())
        return display

    def is_cooked(self):
        return termios.tcgetattr(self.slave)[3] & COOKED == COOKED

    def is_as_before(self):
        return termios.tcgetattr(self.slave) == self.before

    def end(self):
        """Kills what is not at its end; the status, and what it said."""
        if self.program.poll() is None:
            self.program.kill()
        said = self.program.communicate()[1]
        os.close(self.master)
        os.close(self.slave)
        return self.program.returncode, said[-300:]


def looks(display, columns, rows):
    """What each of these cells looks like: a character with marks, which half it is, and its style. (What was never printed looks as a
    space does.)"""
    cells = [display.row(row)[:columns] for row in range(rows)]
    return [[(c + marks, part in (twin.LEFT, twin.RIGHT), style) for c, part, marks, _, style in row] for row in cells]


def of(stream):
    """The screen of a pane whose command writes this."""
    display = twin.Display(COLUMNS, ROWS)
    twin.feed(display, stream.encode())
    return display


# ------------------------------------------------------------------ the pane

STREAMS = [
    ("text", "one\r\ntwo"),
    ("each attribute and underline alone", STYLES),
    ("each kind of colour, before and behind", COLORS),
    ("wide characters and marks", "a\u4e2d\x1b[31m\u4e2de\u0301\u0328\x1b[0m\u4e2d\r\n" + "x" * 19 + "\u4e2d"),
    ("text that is written over", "one\r\ntwo\x1b[Hthree\x1b[2;2H\x1b[1m!"),
    ("text outside of the pane", "\x1b[99;99HX\x1b[1;20H\u20ac\x1b[3;3HY"),
    ("a line that wraps", "x" * 45),
    ("the alternate screen", "main\x1b[?1049h\x1b[44mother"),
    ("what was erased in a colour", "\x1b[42mx\x1b[2J\x1b[0;1m\x1b[2;2Hy"),
    ("a row that ends in a colour", "\x1b[41m" + "x" * 20 + "\x1b[0m\r\nplain\r\n\x1b[1mbold\x1b[0m"),
    ("a hidden cursor", "no cursor\x1b[?25l"),
    ("a cursor that comes back", "\x1b[?25lcursor\x1b[?25h\x1b[4;7H"),
    ("a pending wrap", "y" * 20),
]


def differences(found, wanted):
    """In what a terminal does not show the pane as it should: its cells, the cursor, and what stands beside it."""
    if looks(found, COLUMNS, ROWS) != looks(wanted, COLUMNS, ROWS):
        yield "the cells are not those of %r" % found.text()
    if found.is_visible != wanted.is_visible:
        yield "the cursor is shown or not"
    place = found.cursor.row, found.cursor.column
    if place != (wanted.cursor.row, min(wanted.cursor.column, COLUMNS - 1)):
        yield "the cursor is at %s" % (place,)
    others = [cell for row in range(HIGHER) for at, cell in enumerate(found.row(row)) if row >= ROWS or at >= COLUMNS]
    if any(cell[0] != " " or cell[4] != twin.styles.PLAIN for cell in others):
        yield "there is something beside it"


def stream_cases(pane, room):
    """What shows while a command waits, and when it has ended."""
    for name, stream in STREAMS:
        with open(room + "/stream", "wb") as file:
            file.write(stream.encode())
        terminal = Terminal([pane, str(COLUMNS), str(ROWS), "sh", "-c", 'stty raw -echo; cat "$0"; read line; exit 7', room + "/stream"])
        wanted = of(stream)
        terminal.settle(lambda found: not list(differences(found, wanted)))
        yield "the pane shows %s" % name, ", ".join(differences(terminal.shown(), wanted)) or None
        yield "what is typed goes to it unchanged", "the terminal changes it" if terminal.is_cooked() else None
        os.write(terminal.master, b"\n")
        terminal.settle(lambda _: terminal.program.poll() is not None)
        yield from end_cases(terminal, 7)


def end_cases(terminal, wanted):
    """What a command's end leaves: the terminal as it was, ready for what comes below the pane; and the status."""
    display, is_as_before = terminal.shown(), terminal.is_as_before()
    status, said = terminal.end()
    yield "its end leaves the modes of the terminal as they were", None if is_as_before else "it does not"
    is_so = display.is_visible and display.wraps and display.cursor.style == twin.styles.PLAIN
    yield "with a cursor, autowrap and no style", None if is_so else "it does not"
    place = display.cursor.row, display.cursor.column
    yield "below the pane", None if place == (ROWS, 0) else "at %s" % (place,)
    yield "the status is %d" % wanted, None if (status, said) == (wanted, b"") else "it is %d, %r" % (status, said)


def status_cases(pane):
    """How commands end, by themselves and by signals; and which there are none of."""
    for name, script, wanted in [
        ("a command that ends well", "exit 0", 0),
        ("one that fails", "exit 3", 3),
        ("one that is told to end", "kill -TERM $$", 128 + 15),
        ("one that is killed", "kill -KILL $$", 128 + 9),
        ("one that ends with its last status", "false", 1),
    ]:
        terminal = Terminal([pane, str(COLUMNS), str(ROWS), "sh", "-c", script])
        terminal.settle(lambda _: terminal.program.poll() is not None)
        yield "%s:" % name, None
        yield from end_cases(terminal, wanted)
    terminal = Terminal([pane, str(COLUMNS), str(ROWS), "/nowhere/command"])
    is_said = terminal.settle(lambda found: "/nowhere/command" in found.text())
    yield "a command that is not there is told in the pane", None if is_said else "it shows %r" % terminal.shown().text()
    yield from end_cases(terminal, 127)
    for words in ([], ["20", "5"], ["1", "5", "true"], ["20", "x", "true"], ["1001", "5", "true"]):
        done = run([pane, *words])
        is_so = done.returncode == 2 and done.stdout == b"" and done.stderr != b""
        yield "%s are wrong words" % words, None if is_so else "status %d, %r" % (done.returncode, done.stdout)


def change_cases(pane):
    """What is written where little changes: the rows that do, and no others."""
    terminal = Terminal([pane, str(COLUMNS), str(ROWS), "sh", "-c", "stty raw -echo; seq 4; read line; printf changed; read line"])
    terminal.settle(lambda found: "4" in found.text())
    os.write(terminal.master, b"\n")
    before = len(terminal.written)
    is_so = terminal.settle(lambda found: "changed" in found.text())
    count = terminal.written[before:].count(b"H") - 1  # (a row, and then the cursor, is put in its place by CUP)
    terminal.end()
    yield "a row that changes is written alone", None if is_so and count == 1 else "%d rows are" % count


def narrow_cases(pane):
    """A terminal that is narrower than the pane shows the front of each row."""
    terminal = Terminal([pane, str(COLUMNS), str(ROWS), "sh", "-c", "printf %s $(seq -s / 5001 5020); read line"], 10)
    terminal.settle(lambda found: "5017" in found.text())
    found = [line[:9] for line in terminal.shown().text().splitlines()]
    terminal.end()
    wanted = ["5001/5002", "5005/5006", "5009/5010", "5013/5014", "5017/5018"]
    yield "a terminal that is narrower shows rows cut", None if found == wanted else "it shows %s" % found


def talk_cases(pane):
    """What is typed, the size that a command is told, and many lines: what shows when the command is ready, what is typed then, and what
    shows at the end, with the status."""
    for name, script, ready, typed, wanted, status in [
        ("what is typed", "cat", "", b"typed\r\x04", "typed\ntyped\n", 0),
        ("an interrupt, which goes to the command", "trap 'echo caught; exit 4' INT; echo on; while :; do sleep 0.05; done", "on\n", b"\x03", "on\n^Ccaught\n", 4),
        ("the size", "stty size; echo $TERM", "", b"", "5 20\nxterm-256color\n", 0),
        ("many lines", "seq 1000", "", b"", "997\n998\n999\n1000\n", 0),
    ]:
        terminal = Terminal([pane, str(COLUMNS), str(ROWS), "sh", "-c", script])
        if typed:
            terminal.settle(lambda found: found.text() == ready and not terminal.is_cooked())
            os.write(terminal.master, typed)
        terminal.settle(lambda _: terminal.program.poll() is not None)
        found = terminal.shown().text()
        yield "the pane shows %s" % name, None if found == wanted else "it shows %r" % found
        yield from end_cases(terminal, status)
    done = run([pane, str(COLUMNS), str(ROWS), "cat"], b"from a pipe\r\x04")
    is_so = done.returncode == 0 and b"from a pipe" in done.stdout
    yield "input that is no terminal goes to the command too", None if is_so else "status %d, %r" % (done.returncode, done.stderr[-300:])


def quiet_cases(pane):
    """What a pane leaves alone: a command's ends, and the processor while it waits; and how it ends where nobody can see it."""
    script = "for end in 3 4 5 6 7 8 9; do test -e /proc/$$/fd/$end && echo $end is open; done; echo no other"
    done = run([pane, str(COLUMNS), str(ROWS), "sh", "-c", script])
    is_so = done.returncode == 0 and b"no other" in done.stdout and b"open" not in done.stdout
    yield "a command has three ends and no other", None if is_so else "status %d, %r" % (done.returncode, done.stdout[-300:])
    before = resource.getrusage(resource.RUSAGE_CHILDREN)
    done = run([pane, str(COLUMNS), str(ROWS), "sleep", "2"])
    after = resource.getrusage(resource.RUSAGE_CHILDREN)
    took = after.ru_utime + after.ru_stime - before.ru_utime - before.ru_stime
    yield "where nothing more is typed it waits", failure(done) or (None if took < BUSY else "it takes %.2f seconds of 2" % took)
    began = time.monotonic()
    done = run(["sh", "-c", '"$0" %d %d sh -c "echo; sleep %d" > /dev/full' % (COLUMNS, ROWS, PATIENCE), pane])
    took = time.monotonic() - began
    is_so = done.returncode == 1 and took < PATIENCE
    yield "a full disk ends it, with its command", None if is_so else "status %d, in %.1f seconds" % (done.returncode, took)
    done = run(["sh", "-c", '"$0" %d %d true > /dev/full' % (COLUMNS, ROWS), pane])
    yield "so it is where the command writes nothing", None if done.returncode == 1 else "status %d" % done.returncode


def built(name, room):
    """The command that builds an example, with the sanitizers, and the program; or none, where no compiler is there."""
    tool, program = compiler("gcc", "cc", "clang"), "%s/%s" % (room, name)
    source = "%s/examples/%s.c" % (ROOT, name)
    # (what LLVM and gcc make of memcmp themselves is not looked at)
    return tool and [tool, "-std=c99", "-O2", "-fno-builtin-memcmp", *SANITIZERS, *WARNINGS, source, ARCHIVE, "-o", program], program


def pane_cases(room):
    command, pane = built("pane", room)
    if not command:
        yield left_out("gcc")
        return
    yield "examples/pane.c is built", failure(run(command))
    yield from stream_cases(pane, room)
    yield from status_cases(pane)
    yield from change_cases(pane)
    yield from narrow_cases(pane)
    yield from talk_cases(pane)
    yield from quiet_cases(pane)


# ------------------------------------------------------------------ the screen


def screen_cases(room):
    """What is written of a screen; and words and streams that it can't do with, told on standard error."""
    command, screen = built("screen", room)
    if not command:
        return
    yield "examples/screen.c is built", failure(run(command))
    tool = compiler("g++", "c++", "clang++")
    if tool:
        words = ["-x", "c++", "-std=c++17", "-pedantic", *WARNINGS, "-fsyntax-only"]
        yield "as C++ too", failure(run([tool, *words, "%s/examples/screen.c" % ROOT]))
    for words, stream, wanted in [
        ([], b"one\r\n\x1b[1mtwo\x1b[24;80Hx\x1b[24;81Hy", b"one\ntwo\n" + b"\n" * 21 + b" " * 79 + b"y\n"),
        (["9", "2"], b"a line that is wrapped", b"at is wra\npped\n"),
        (["2", "9"], b"abcd", b"ab\ncd\n"),
        (["2", "1"], b"", b""),
        (["1000", "1"], b"\xe4\xb8\xad" * 500, b"\xe4\xb8\xad" * 500 + b"\n"),
    ]:
        done = run([screen, *words], stream)
        is_so = done.returncode == 0 and done.stdout == wanted and not done.stderr
        yield "the screen of %s words shows %r" % (words, stream[:30]), None if is_so else "status %d, %r" % (done.returncode, done.stdout)
    for words in (["80"], ["80", "24", "1"], ["1", "1"], ["1001", "1"], ["2", "0"], ["2", "1001"], ["x", "y"]):
        done = run([screen, *words], b"x")
        is_so = (done.returncode, done.stdout, done.stderr) == (2, b"", b"usage: screen [COLUMNS ROWS]\n")
        yield "the words %s are refused" % words, None if is_so else "status %d, %r" % (done.returncode, done.stderr)
    for name, script in ("a full disk", '"$0" > /dev/full'), ("a folder as input", '"$0" < /'):
        done = run(["sh", "-c", script, screen], b"x")
        is_so = done.returncode == 1 and re.fullmatch(rb"screen: .+\n", done.stderr)
        yield "%s is told" % name, None if is_so else "status %d, %r" % (done.returncode, done.stderr)
