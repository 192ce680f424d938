"""Programs that people use, in examples/pane.c: what is typed at its terminal, as xterm sends it, does in them what it does in xterm.

    cases(pane)     those of tests/screen_library, of a pane that is built, or none
"""

import os
import shutil
import tempfile

from lib import needs
from lib.pane_talks import Talk

COLUMNS, ROWS = 70, 14


def click(row, column):
    """The left button goes down and comes up, at a place that is counted from 0."""
    return "\x1b[<0;{0};{1}M\x1b[<0;{0};{1}m".format(column + 1, row + 1)


class Program(Talk):
    """One of them in a pane, with a folder of its own as its home."""

    def __init__(self, pane, room, *words):
        home = ["HOME=" + room, "PS1=$ ", "HISTFILE=", "INPUTRC=/dev/null", "LESS=", "LESSOPEN=", "LC_ALL=C.UTF-8", "HTOPRC=%s/htop" % room]
        super().__init__(pane, COLUMNS, ROWS, ["env", *home, *words])

    def row(self, number):
        rows = self.rows()
        return rows[number] if number < len(rows) else ""

    def place(self):
        return self.shown().cursor.row, self.shown().cursor.column

    def does(self, typed, is_so):
        """Types, and says what shows where that does not come to be so."""
        self.type(typed.encode())
        return None if self.until(is_so) else "the cursor is at %s, and it shows %r" % (self.place(), self.rows())

    def styles(self, number):
        """The style of each cell of a row."""
        return [style for *_, style in self.shown().row(number)]

    def ends(self, typed, status=0):
        """Types what ends it: then it leaves no mode of the terminal."""
        self.type(typed.encode())
        why = None if self.has_ended() else "it does not end, and shows %r" % self.rows()
        why = why or ("it leaves the modes %s" % sorted(self.modes()) if self.modes() else None)
        found = self.end()
        return why or (None if found == (status, b"") else "status %d, %r" % found)


def bash_cases(pane, room):
    bash = Program(pane, room, "bash", "--norc", "--noprofile", "-i")
    yield "bash prompts", bash.says("", "$")
    yield "two lines are pasted, and not run", bash.says("\x1b[200~echo one\recho two\x1b[201~", "$ echo one\necho two")
    yield "but by Enter", bash.says("\r", "$ echo one\necho two\none\ntwo\n$")
    yield "the cursor key brings back the last command", bash.says("\x1b[A\r", "$ echo one\necho two\none\ntwo\n$ echo two\ntwo\n$")
    yield "it ends", bash.ends("exit 3\r", 3)


def less_cases(pane, room):
    less = Program(pane, room, "less", room + "/lines")
    yield "less shows a file", less.does("", lambda: less.row(12) == "line 13" and less.row(13).endswith("lines"))
    yield "the cursor key goes on by a line", less.does("\x1b[B", lambda: less.row(0) == "line 2")
    yield "and Page Down by a page", less.does("\x1b[6~", lambda: less.row(0) == "line 15")
    yield "q ends it", less.ends("q")
    less = Program(pane, room, "less", "--mouse", room + "/lines")
    less.does("", lambda: less.row(13).endswith("lines"))
    yield "the wheel turns it", less.does("\x1b[<65;3;3M", lambda: less.row(0) not in ("", "line 1"))
    yield "and q ends it", less.ends("q")


def vim_cases(pane, room):
    words = ["set mouse=a", "nnoremap <S-F6> ifunction<Esc>", "autocmd FocusLost * call setline(9, 'lost') | redraw"]
    words = [it for word in words for it in ("-c", word)]
    vim = Program(pane, room, "vim", "-u", "NONE", "-N", "-i", "NONE", "-n", *words, room + "/lines")
    yield "vim shows a file", vim.does("", lambda: vim.row(12) == "line 13" and vim.place() == (0, 0))
    yield "text is inserted, up to Escape", vim.does("ihello \x1b", lambda: vim.row(0) == "hello line 1" and vim.place() == (0, 5))
    yield "a click moves the cursor", vim.does(click(3, 2), lambda: vim.place() == (3, 2))
    yield "to where x deletes", vim.does("x", lambda: vim.row(3) == "lie 4")
    yield "Control and a cursor key go to the next word", vim.does("\x1b[1;5C", lambda: vim.place() == (3, 4))
    yield "Shift and a function key are mapped", vim.does("\x1b[17;2~", lambda: vim.row(3) == "lie function4")
    yield "a drag selects", vim.does("\x1b[<0;2;6M\x1b[<32;4;7M\x1b[<0;4;7m", lambda: vim.row(13).startswith("-- VISUAL"))
    yield "what d deletes", vim.does("d", lambda: vim.row(5) == "l 7" and vim.row(6) == "line 8")
    yield "a paste is text, and no commands", vim.does("\x1b[200~dd\x1b[201~", lambda: vim.row(5) == "l dd7")
    yield "the focus is told", vim.does("\x1b[O", lambda: vim.row(8) == "lost")
    yield "the wheel turns the page", vim.does("\x1b[<65;3;3M", lambda: vim.row(0) == "lie function4")
    yield ":q! ends it", vim.ends(":q!\r")


def htop_cases(pane, room):
    htop = Program(pane, room, "htop", "-d", "100")
    has_header = lambda: any("PID" in it for it in htop.rows()) and htop.row(ROWS - 1).startswith("F1Help")
    yield "htop shows processes", htop.does("", has_header)
    header = [number for number, it in enumerate(htop.rows()) if "PID" in it][0]
    first, second = htop.styles(header + 1), htop.styles(header + 2)
    yield "the cursor key goes to the second", htop.does("\x1b[B", lambda: htop.styles(header + 1) != first and htop.styles(header + 2) != second)
    column = htop.row(header).index("PID")
    other = htop.styles(header)[column]
    yield "a click on its head sorts by a column", htop.does(click(header, column), lambda: htop.styles(header)[column] != other)
    yield "F10 ends it", htop.ends("\x1b[21~")


def mc_cases(pane, room):
    mc = Program(pane, room, "mc", "-u", room + "/files", room + "/files")
    says = lambda text: lambda: any(it.startswith("│%s " % text) and it.count("Modify") == 0 for it in mc.rows()[ROWS - 6 : ROWS - 3])
    yield "mc shows a folder", mc.does("", lambda: mc.row(ROWS - 1).endswith("10Quit") and says("UP--DIR")())
    yield "the cursor key goes to its first file", mc.does("\x1b[B", says(" one"))
    row = [number for number, it in enumerate(mc.rows()) if it.startswith("│ three ")][0]
    yield "a click goes to another", mc.does(click(row, 4), says(" three"))
    yield "one on the menu opens it", mc.does(click(0, 4), lambda: any("File listing" in it for it in mc.rows()))
    yield "F10 closes it", mc.does("\x1b[21~", lambda: not any("File listing" in it for it in mc.rows()))
    yield "F10 ends it", mc.ends("\x1b[21~")


PROGRAMS = {"bash": bash_cases, "less": less_cases, "vim": vim_cases, "htop": htop_cases, "mc": mc_cases}


def cases(pane):
    if not os.path.exists(pane):
        return
    with tempfile.TemporaryDirectory() as room:
        os.mkdir(room + "/files")
        for name in ("one", "two", "three"):
            open("%s/files/%s" % (room, name), "w").close()
        with open(room + "/lines", "w") as file:
            file.writelines("line %d\n" % it for it in range(1, 101))
        for name, of_program in PROGRAMS.items():
            if shutil.which(name):
                yield from of_program(pane, room)
            else:
                yield needs.left_out(name)
