"""Terminals that tell what they show: tmux, xterm under an Xvfb of its own, and libvterm, for tests/screen/redrawn.py.

    write(data)         gives the terminal bytes, and waits until it has read them
    told()              what it tells besides its cells, and told_of(display) what it is to tell of a screen
    cells()             its cells, each a text with a style, and behind them what the cursor prints, a q;
                        it writes strokes into the last column
    shown(cell)         a cell as it tells it, and sees(width, at, text) whether it tells one
    given(data)         a recording without what it does otherwise, and is_asked(display) whether it can show a screen

redrawn.py's help says what each does not tell.
"""

import os
import pty
import re
import select
import subprocess
import sys
import tty

import streams
import twin

PATIENCE = 5  # the seconds for which a terminal may take a stream
SOURCE = os.path.join(os.path.dirname(os.path.realpath(__file__)), "vterm_text.c")
RED_ON = b"\x1b[5n", b"\x1b[0n"  # a status that is asked for, and told


def cells_of(display):
    """What each cell shows, in which style; a right half nothing."""
    return [("" if part == twin.RIGHT else c + marks, style) for c, part, marks, _, style in display.cells]


def read(rows, width, height):
    """The cells of rows that were written with the sequences of their styles, and line drawing by G1."""
    display = twin.Display(width, height)
    twin.feed(display, b"\x1b)0\x1b[?7l" + b"\r\n".join(rows[:height]))
    return cells_of(display)


def numbered(style):
    """A style whose named colours are those of the 256."""
    change = lambda it: (5, it[0] if it[0] < 8 else it[0] - 52) if it and len(it) == 1 else it
    return style._replace(foreground=change(style.foreground), background=change(style.background))


def read_until(file, last, name, count=1):
    """All up to that, which comes so many times."""
    found = b""
    while not found.endswith(last) or found.count(last) < count:
        if not select.select([file], [], [], PATIENCE)[0]:
            sys.exit("%s did not answer" % name)
        found += os.read(file, 1 << 16)
    return found


def write_all(file, data):
    while data:
        data = data[os.write(file, data[:4096]) :]


def asked_of_tmux(socket, *words):
    """What a tmux of our own answers."""
    command = ["tmux", "-u", "-f", "/dev/null", "-S", socket, *words]
    return subprocess.run(command, capture_output=True, env=dict(os.environ, LC_ALL="C.UTF-8")).stdout


def xvfb(depth, *words):
    """An X server of our own with so many bits a pixel, and the name of its display."""
    told, tell = os.pipe()
    words = ["Xvfb", "-displayfd", str(tell), "-screen", "0", "1600x1200x%d" % depth, "-nolisten", "tcp", *words]
    server = subprocess.Popen(words, pass_fds=[tell], stderr=subprocess.DEVNULL)
    os.close(tell)
    with open(told) as name:
        return server, ":" + name.readline().strip()


def xterm_under_xvfb(width, height, depth, liberties):
    """An xterm on a server of its own with so many bits a pixel: the server, the xterm, and the terminal that it shows."""
    server, display = xvfb(depth)
    ours, terminal = pty.openpty()
    tty.setraw(terminal)
    words = ["xterm", "-u8", "-ti", "vt420", "-geometry", "%dx%d" % (width, height)]
    words += [it for liberty in liberties for it in ("-xrm", "XTerm*" + liberty)]
    words.append("-S%s/%d" % (os.path.basename(os.ttyname(terminal)), ours))
    env = dict(os.environ, DISPLAY=display, LC_ALL="C.UTF-8")
    return server, subprocess.Popen(words, pass_fds=[ours], env=env, stderr=subprocess.DEVNULL), terminal


class Terminal:
    """What stands where a row ends is told only before a character, so that the cells are looked at twice: of the last
    two columns what was told before there were strokes, of the others what is told behind it."""

    codes = streams.STYLES
    keeps_autowrap = True  # of streams for updates, since without it no wrap is pending
    shown = staticmethod(lambda cell: cell)
    given = staticmethod(lambda data: data)
    is_asked = staticmethod(lambda display: True)

    def __init__(self, folder, width, height):
        self.width, self.height = width, height
        self.begin(folder)

    @staticmethod
    def sees(width, at, text):
        """Spaces in the last two columns are not told."""
        return text != " " or at % width < width - 2

    def strokes(self):
        """A q in the cursor's style and character set, and strokes below it."""
        there = b"\x1b[?6l\x1b[4l\x1b[1;%dHq\x1b(B\x0f\x1b[m" % self.width
        return there + b"".join(b"\x1b[%d;%dH|" % (row + 1, self.width) for row in range(1, self.height))

    def cells(self):
        before = self.captured()
        self.write(self.strokes())
        after = self.captured()
        found = [pair[at % self.width < self.width - 2] for at, pair in enumerate(zip(before, after))]
        return [self.shown(cell) for cell in [*found, after[self.width - 1]]]

    def wanted(self, display):
        """The cells as it is to tell them."""
        place = display.cursor
        cursor = (twin.DRAWN["q"] if place.draws[place.shift] else "q", place.style)
        return [self.shown(cell) for cell in [*cells_of(display), cursor]]


class Tmux(Terminal):
    """A pane of a tmux of our own. One process of it copies streams to the pane, and another what the pane answers."""

    TOLD = "#{cursor_y} #{cursor_x} #{wrap_flag} #{insert_flag} #{origin_flag} #{cursor_flag}"
    TOLD += " #{scroll_region_upper} #{scroll_region_lower} #{alternate_on} #{pane_tabs}"

    def begin(self, folder):
        self.socket = os.path.join(folder, "tmux")
        pipes = [os.path.join(folder, name) for name in ("tmux_stream", "tmux_answers")]
        for pipe in pipes:
            os.mkfifo(pipe)
        self.answers = os.open(pipes[1], os.O_RDWR)
        size = ["-x", str(self.width), "-y", str(self.height)]
        self.ask("new-session", "-d", *size, "stty raw -echo; cat %s & exec cat >%s" % tuple(pipes))
        self.ask("set", "-g", "status", "off")
        self.ask("resize-window", *size)
        self.stream = os.open(pipes[0], os.O_WRONLY)

    def ask(self, *words):
        return asked_of_tmux(self.socket, *words)

    def write(self, data):
        write_all(self.stream, data + RED_ON[0])
        read_until(self.answers, RED_ON[1], "tmux")

    def captured(self):
        # (tmux writes 53 as 5:3)
        rows = self.ask("capture-pane", "-p", "-e")
        rows = re.sub(rb"\x1b\[[\d;:]*m", lambda it: it[0].replace(b"5:3", b"53"), rows).split(b"\n")
        return read(rows, self.width, self.height)

    def told(self):
        return self.ask("display", "-p", self.TOLD).decode().split()

    @staticmethod
    def told_of(display):
        place = display.cursor
        flags = display.wraps, display.inserts, place.is_relative, display.is_visible
        tabs = ",".join(str(column) for column, stops in enumerate(display.tabs) if stops and column)
        numbers = [place.row, place.column, *flags, display.top, display.bottom - 1, display.is_alternate]
        return [*(str(int(it)) for it in numbers), *([tabs] if tabs else [])]

    def end(self):
        self.ask("kill-server")


class Xterm(Terminal):
    """An xterm of our own, which prints its screen with styles into a pipe, and answers what else is asked."""

    keeps_autowrap = False
    codes = [code for code in streams.STYLES if code not in ("48:2::1:2:3", "4:3", "2;5;8")] + ["48;5;17", "2;5"]
    LIBERTIES = ["allowWindowOps: true", "utf8: 2", "scrollBar: false", "precompose: false", "printAttributes: 2"]
    LIBERTIES += ["printerAutoClose: true", "boldColors: false"]
    MODES = "?6", "4", "?7", "?25", "?1049"
    # DECCIR, DECTABSR, DECSTBM, and each mode
    ASKED = b"\x1b[1$w\x1b[2$w\x1bP$qr\x1b\\" + b"".join(b"\x1b[%s$p" % mode.encode() for mode in MODES)

    @staticmethod
    def given(data):
        """A stream with one of the 256 colours for each of RGB."""
        one = lambda it: b"%s;5;%d" % (it[1], 16 + sum(map(int, it[2].split(b";"))) % 240)
        return re.sub(rb"([34]8);2;(\d+;\d+;\d+)", one, data)

    def begin(self, folder):
        pipe, printer = os.path.join(folder, "printed"), os.path.join(folder, "printer")
        os.mkfifo(pipe)
        with open(printer, "w") as script:
            script.write("#!/bin/sh\n{ cat; printf '\\001'; } >%s\n" % pipe)
        os.chmod(printer, 0o755)
        self.printed = os.open(pipe, os.O_RDWR)
        liberties = [*self.LIBERTIES, "printerCommand: " + printer]
        self.server, self.program, self.terminal = xterm_under_xvfb(self.width, self.height, 24, liberties)
        read_until(self.terminal, b"\n", "xterm")

    def write(self, data):
        return self.asked(data)

    def asked(self, data):
        write_all(self.terminal, data + RED_ON[0])
        return read_until(self.terminal, RED_ON[1], "xterm").decode()

    @staticmethod
    def shown(cell):
        """It has no line above."""
        return cell[0], numbered(cell[1])._replace(overlined=False)

    def captured(self):
        write_all(self.terminal, b"\x1b[?19h\x1b[i")  # DECPEX, all rows, and MC
        printed = read_until(self.printed, b"\x01", "xterm")[:-1].decode().replace("\x1b#5", "")
        # (each character that is not plain has its style before it, and what has none is plain)
        printed = re.sub("(\x1b\\[[0-9;:]*m|\r\n)|(.)", lambda it: it[1] or it[2] + "\x1b[m", printed, flags=re.S)
        rows = re.sub("(\x1b\\[[0-9;:]*m)*\uffff", "", printed).encode().split(b"\r\n")
        return read(rows, self.width, self.height)

    def told(self):
        found = self.asked(self.ASKED)
        row, column, *_, flags, shift, _, _, sets = re.search(r"\x1bP1\$u(.*?)\x1b", found)[1].split(";")
        # (it tells a stop behind the last column too)
        stops = re.search(r"\x1bP2\$u(.*?)\x1b", found)[1].split("/")
        tabs = "/".join(it for it in stops if it and int(it) <= self.width)
        modes = dict(re.findall(r"\x1b\[(\??\d+);([12])\$y", found))
        wrap = str(ord(flags) >> 3 & 1)
        margins = re.search(r"\$r(.*?)r", found)[1]
        return [row, column, wrap, shift, sets[:2], tabs, margins, *(modes[mode] for mode in self.MODES)]

    @staticmethod
    def told_of(display):
        place = display.cursor
        is_pending = place.column == display.width
        tabs = "/".join(str(column + 1) for column, stops in enumerate(display.tabs) if stops)
        modes = place.is_relative, display.inserts, display.wraps, display.is_visible, display.is_alternate
        told = [place.row + 1, place.column + (not is_pending), int(is_pending), place.shift]
        told += ["".join("B0"[draws] for draws in place.draws), tabs, "%d;%d" % (display.top + 1, display.bottom)]
        return [*map(str, told), *("21"[on] for on in modes)]

    def end(self):
        self.program.terminate()
        self.server.terminate()


class Libvterm(Terminal):
    """A program over libvterm, which answers each stream with its cells and cursor."""

    codes = [code for code in streams.STYLES if code not in ("21;53", "2;5;8")] + ["21", "5"]

    def begin(self, folder):
        program = os.path.join(folder, "vterm_text")
        subprocess.run(["cc", "-O2", "-o", program, SOURCE, "-lvterm"], check=True)
        words = [program, str(self.width), str(self.height), "cells"]
        self.process = subprocess.Popen(words, stdin=subprocess.PIPE, stdout=subprocess.PIPE)

    @staticmethod
    def is_asked(display):
        cells = enumerate(display.cells + display.hidden)
        return not any(marks for at, (_, _, marks, *_) in cells if at % display.width == display.width - 1)

    sees = staticmethod(lambda width, at, text: True)

    def write(self, data):
        self.process.stdin.write(b"%d\n%s" % (len(data), data))
        self.process.stdin.flush()
        *self.rows, self.cursor, _ = read_until(self.process.stdout.fileno(), b" end \n", "libvterm").split(b"\n")

    def captured(self):
        return read(self.rows, self.width, self.height)

    def cells(self):
        before = self.captured()
        self.write(self.strokes())
        return [self.shown(cell) for cell in [*before, self.captured()[self.width - 1]]]

    @staticmethod
    def shown(cell):
        """It has no dim and hidden text, and no line above."""
        return cell[0], numbered(cell[1])._replace(dim=False, hidden=False, overlined=False)

    def told(self):
        return self.cursor.decode().split()[:2]

    @staticmethod
    def told_of(display):
        column, is_wide = display.cursor.column, display.cells[display.row_end() - 1][1] == twin.RIGHT
        return [str(display.cursor.row), str(column if column < display.width else column - 1 - is_wide)]

    def end(self):
        self.process.stdin.close()
        self.process.wait()


KINDS = {"tmux": Tmux, "xterm": Xterm, "libvterm": Libvterm}
