"""What is typed at examples/pane.c, as xterm sends it, and what its command reads; and what the pane asks of its terminal.

    cases(pane)         those of tests/screen_library, of a pane that is built, or none
    Talk                a command in a pane, to which is typed
"""

import codecs
import os
import re
import select
import tempfile
import threading
import time

from lib.library_shared import run
from lib.screen_examples import PATIENCE, Terminal

import twin

MODE = re.compile(rb"\x1b\[\?([0-9;]+)([hl])")
OWN = {"7", "25"}  # modes of the terminal that a pane sets and resets itself, and leaves on
LONG = 250_000
PIECES = 30


class Talk(Terminal):
    """A command in a pane, on a terminal that is one column wider and two rows higher."""

    def __init__(self, pane, columns, rows, command):
        self.display, self.fed, self.rest, self.typed = twin.Display(columns + 1, rows + 2), 0, b"", 0
        self.decoder = codecs.getincrementaldecoder("utf-8")()
        super().__init__([pane, str(columns), str(rows), *command], columns + 1, rows + 2)

    def shown(self):
        new = self.decoder.decode(self.written[self.fed :])
        self.fed = len(self.written)
        self.rest = twin.feed(self.display, self.rest + new.encode())
        return self.display

    def rows(self):
        """The text of the rows that have some, without blanks at their ends."""
        return self.shown().text().splitlines()

    def until(self, is_so):
        """Reads until that is so, and answers whether it has come to be so."""
        end = time.monotonic() + PATIENCE
        while time.monotonic() < end:
            if select.select([self.master], [], [], 0.02)[0]:
                self.written += os.read(self.master, 65536)
            elif is_so():
                return True
        return False

    def type(self, typed):
        while typed:
            count = os.write(self.master, typed[:4096])
            self.typed, typed = self.typed + count, typed[count:]

    def says(self, typed, wanted):
        """Types, and says what shows where it comes to be another text."""
        self.type(typed.encode())
        return None if self.until(lambda: "\n".join(self.rows()) == wanted) else "it shows %r" % self.rows()

    def has_ended(self):
        return self.until(lambda: self.program.poll() is not None)

    def modes(self):
        """The modes that are on by what was written."""
        found = set()
        for numbers, last in MODE.findall(self.written):
            numbers = set(numbers.decode().split(";"))
            found = found | numbers if last == b"h" else found - numbers
        return found - OWN


# What the command asks for, what is typed, and what it reads, as `cat -vT` has it. A period is typed last.
READ = [
    ("characters", "", "aZ é中~", "aZ M-CM-)M-dM-8M--~"),
    ("controls", "", "\x00\x01\b\t\r\x1a\x1c\x1f\x7f\n", "^@^A^H^I^M^Z^\\^_^?\n" + " " * 23),
    ("Alt", "", "\x1ba\x1bA\x1b\x01\x1b\x7f\x1bé", "^[a^[A^[^A^[^?^[M-CM-)"),
    ("Escape twice", "", "\x1b\x1b", "^[^["),
    ("the cursor keys", "", "\x1b[A\x1bOB\x1b[C\x1b[D\x1b[H\x1bOF", "^[[A^[[B^[[C^[[D^[[H^[[F"),
    ("cursor keys for an application", "\x1b[?1h", "\x1b[A\x1bOB\x1b[C\x1b[D\x1b[H\x1bOF", "^[OA^[OB^[OC^[OD^[OH^[OF"),
    ("with what is held", "\x1b[?1h", "\x1b[1;2A\x1b[1;3B\x1b[1;5C\x1b[1;8D", "^[[1;2A^[[1;3B^[[1;5C^[[1;8D"),
    ("keys of editing", "", "\x1b[2~\x1b[3;5~\x1b[5~\x1b[6;2~\x1b[1~\x1b[4~", "^[[2~^[[3;5~^[[5~^[[6;2~^[[H^[[F"),
    ("F1 to F4", "", "\x1bOP\x1bOQ\x1b[1;2R\x1bOS", "^[OP^[OQ^[[1;2R^[OS"),
    ("F5 to F12", "", "".join("\x1b[%d~" % it for it in (15, 17, 18, 19, 20, 21, 23, 24)), "".join("^[[%d~" % it for it in (15, 17, 18, 19, 20, 21, 23, 24))),
    ("Tab with Shift", "", "\x1b[Z", "^[[Z"),
    ("sequences of no key", "", "\x1b[99~\x1b[?1;2c\x1b[1;1y\x1b[<0;0;3M", ""),
    ("what is no UTF-8", "", b"\xff\xe9a\x80", "a"),
    ("kitty's keys", "\x1b[>1u", "\x1ba\x01\x1b[A", "^[[97;3u^[[97;5u^[[A"),
    ("modifyOtherKeys", "\x1b[>4;2m", "\x1ba\x1b[Z", "^[[27;3;97~^[[Z"),
    ("the mouse, not asked for", "", "\x1b[<0;3;2M\x1b[<0;3;2m", ""),
    ("presses", "\x1b[?9h", "\x1b[<0;3;2M\x1b[<0;3;2m", '^[[M #"'),
    ("releases too", "\x1b[?1000h", "\x1b[<0;3;2M\x1b[<32;4;2M\x1b[<0;4;2m", '^[[M #"^[[M#$"'),
    ("drags", "\x1b[?1002;1006h", "\x1b[<4;3;2M\x1b[<36;4;2M\x1b[<4;4;2m\x1b[<35;9;2M", "^[[<4;3;2M^[[<36;4;2M^[[<4;4;2m"),
    ("motion, in other numbers", "\x1b[?1003;1015h", "\x1b[<35;9;2M\x1b[<18;9;2M", "^[[67;9;2M^[[50;9;2M"),
    ("the wheel and other buttons", "\x1b[?1000;1006h", "\x1b[<64;1;1M\x1b[<65;1;1M\x1b[<66;1;1M\x1b[<129;1;1m", "^[[<64;1;1M^[[<65;1;1M^[[<66;1;1M^[[<129;1;1m"),
    ("the mouse beyond the pane", "\x1b[?1003;1006h", "\x1b[<0;61;2M\x1b[<0;3;6M\x1b[<0;60;5M\x1b[<0;61;6m", "^[[<0;60;5M^[[<0;61;6m"),
    ("the focus, not asked for", "", "\x1b[I\x1b[O", ""),
    ("the focus", "\x1b[?1004h", "\x1b[O\x1b[I", "^[[O^[[I"),
    ("a paste, not asked for", "", "\x1b[200~a\rb\x1b[Ac\x1b[201~", "a^Mb[Ac"),
    ("a paste", "\x1b[?2004h", "\x1b[200~a\rb\x1b[A\x1b\x1b[201~\x1b[A", "^[[200~a^Mb[A^[[201~^[[A"),
    ("an empty paste", "\x1b[?2004h", "\x1b[200~\x1b[201~", "^[[200~^[[201~"),
    ("what is taken back", "\x1b[?1;1000;1006;1004;2004h\x1bc", "\x1b[A\x1b[<0;3;2M\x1b[I\x1b[200~a\x1b[201~", "^[[Aa"),
]
# What the command asks, and what it is answered.
ANSWERED = [
    ("whether all is well", "\x1b[5n", "^[[0n"),
    ("where the cursor is", "\x1b[3;5H\x1b[6n", "^[[3;5R"),
    ("two at once", "\x1b[c\x1b[18t", "^[[?62;22c^[[8;5;60t"),
    ("what a mode is", "\x1b[?2004h\x1b[?2004$p\x1b[?9$p", "^[[?2004;1$y^[[?9;2$y"),
    ("what the style is", "\x1b[1;31m\x1bP$qm\x1b\\", "^[P1$r0;1;31m^[\\"),
    ("a colour that it has set", "\x1b]11;#102030\x07\x1b]11;?\x07", "^[]11;rgb:1010/2020/3030^G"),
]
# What the command asks for, and the modes of its terminal that the pane asks for by it.
ASKED = [
    ("nothing", "\x1b[1;1004h\x1b[>1h\x1b[?1;12;7;66;1015;1006;1007;1049;2026h", ""),
    ("presses alone", "\x1b[?9h", "1000 1006"),
    ("presses and releases", "\x1b[?1000h", "1000 1006"),
    ("drags, and a paste", "\x1b[?2004;1002h", "1002 1006 2004"),
    ("motion after drags", "\x1b[?1002h-\x1b[?1003h", "1003 1006"),
    ("the focus", "\x1b[?1004h", "1004"),
    ("what is taken back", "\x1b[?1003;1004;2004h-\x1b[?1003;1004;2004l", ""),
    ("what a reset takes back", "\x1b[?1003;1004;2004h-\x1bc", ""),
]


def reader(pane, stream):
    """A pane whose command asks, and shows what it reads."""
    script = 'stty raw -echo; printf %s "$0"; printf "\\033[H\\033[Jready"; exec cat -vT'
    talk = Talk(pane, 60, 5, ["sh", "-c", script, stream])
    return talk, talk.until(lambda: talk.rows() == ["ready"])


def read_cases(pane):
    for name, stream, typed, wanted in READ:
        talk, is_ready = reader(pane, stream)
        why = "it is not ready" if not is_ready else None
        talk.type(typed if isinstance(typed, bytes) else typed.encode())
        yield "the command reads %s" % name, why or talk.says(".", "ready%s." % wanted)
        talk.end()


def escape_cases(pane):
    """Bytes that come one by one, and the key Escape, after which nothing comes."""
    talk, _ = reader(pane, "\x1b[?2004h")
    yield "Escape is a key when nothing follows", talk.says("\x1b", "ready^[")
    yield "and after a while the other bytes are keys of their own", talk.says("[A", "ready^[[A")
    yield "what begins a sequence is Alt and a key then", talk.says("\x1b[", "ready^[[A^[[")
    yield "a paste waits for its end", talk.says("\x1b[200~one", "ready^[[A^[[")
    time.sleep(0.1)  # (more than what Escape waits for)
    yield "however late that comes", talk.says("\x1b[201~", "ready^[[A^[[^[[200~one^[[201~")
    talk.end()
    talk, _ = reader(pane, "\x1b[?1h")
    shown = lambda: "".join(talk.rows())
    for _ in range(PIECES):  # (where the machine is busy, a piece can come late)
        before = len(shown())
        for piece in (b"\x1b", b"[D"):
            talk.type(piece)
            time.sleep(0.003)
        talk.until(lambda: shown()[before:] in ("^[OD", "^[[D"))
        if shown().endswith("^[OD"):
            break
    yield "a key that comes in pieces is one", None if shown().endswith("^[OD") else "it shows %r" % talk.rows()
    talk.end()


def asked_cases(pane):
    for name, stream, wanted in ASKED:
        talk, is_ready = reader(pane, stream)
        found = talk.modes()
        talk.type(b"x")
        talk.until(lambda: talk.rows() == ["readyx"])
        yield "a command that asks for %s" % name, None if is_ready and found == set(wanted.split()) else "modes are %s" % sorted(found)
        # (the command is killed, and then its pane finds its end)
        os.kill(int(open("/proc/%d/task/%d/children" % (talk.program.pid, talk.program.pid)).read().split()[0]), 9)
        is_over = talk.has_ended()
        yield "leaves the terminal without it", None if is_over and not talk.modes() else "modes are %s" % sorted(talk.modes())
        talk.end()


def answer_cases(pane):
    script = 'stty raw -echo; printf %s "$0"; exec cat -vT'
    for name, stream, wanted in ANSWERED:
        talk = Talk(pane, 60, 5, ["sh", "-c", script, stream + "\x1b[m\x1b[H"])
        yield "a command is answered %s" % name, talk.says("", wanted)
        talk.end()
    script = 'stty raw -echo; head -c 100000 /dev/zero | sed "s/./$(printf "\\033[c")/g"; printf "\033[H\033[Jdone"; read line'
    talk = Talk(pane, 60, 5, ["sh", "-c", script])
    yield "one that reads no answer does not stop the pane", talk.says("", "done")
    talk.end()


def ends_with(talk, wanted):
    """Ends it by a line, and says what its end does not write once of titles and shapes."""
    before = len(talk.written)
    talk.type(b"\n")
    talk.has_ended()
    found = re.findall(rb"\x1b\[23;2t|\x1b\[\d q|\x1b\]2;.*?\x1b\\", talk.written[before:])
    talk.end()
    return None if found == wanted else "it writes %s" % found


def told_cases(pane):
    """What shows outside of the pane: the title, the bell and the cursor's shape; and what is undone at the end."""
    asks = r'stty raw -echo; printf "\033]2;one\007\007\033[4 q"; printf ready; read line; printf "\033]0;two\033\\\\ready"; read line'
    takes_back = asks + r'; printf "\033]2;\033\\\\ready"; read line'
    talk = Talk(pane, 30, 3, ["sh", "-c", asks])
    talk.until(lambda: talk.rows() == ["ready"])
    found = [talk.written.count(it) for it in (b"\x1b[22;2t\x1b]2;one\x1b\\", b"\a", b"\x1b[4 q")]
    yield "its title, bell and cursor are the terminal's", None if found == [1, 1, 1] else "they are written %s times" % found
    before = len(talk.written)
    talk.type(b"\n")
    talk.until(lambda: talk.rows() == ["readyready"])
    found = [talk.written[before:].count(it) for it in (b"\x1b]2;two\x1b\\", b"\x1b[22;2t", b"\a", b" q")]
    yield "the next title too, and nothing else again", None if found == [1, 0, 0, 0] else "they are written %s times" % found
    yield "its end takes back title and shape", ends_with(talk, [b"\x1b[23;2t", b"\x1b[0 q"])
    talk = Talk(pane, 30, 3, ["sh", "-c", takes_back])
    for shown in ("ready", "readyready", "readyreadyready"):
        talk.until(lambda: talk.rows() == [shown])
        talk.type(b"\n" * (shown != "readyreadyready"))
    found = [talk.written.count(it) for it in (b"\x1b[23;2t", b"\x1b]2;\x1b\\")]
    yield "without a title the terminal has its own", None if found == [1, 0] else "they are written %s times" % found
    yield "and its end takes back the shape", ends_with(talk, [b"\x1b[0 q"])


def queue_cases(pane):
    """A command that does not read, to which more is typed or pasted than its terminal holds, and which then writes more than that."""
    script = 'stty raw -echo; printf ready; until [ -e "$0" ]; do sleep 0.01; done; seq 14000; printf "\\033[2J\\033[H"; head -c %d | cksum' % LONG
    text = "".join("%d " % it for it in range(LONG))[:LONG].encode()
    wanted = run(["cksum"], text).stdout.decode().split("\n")[0]
    for name, typed, is_bounded in ("is typed", text, True), ("is pasted", b"\x1b[200~" + text + b"\x1b[201~", False):
        with tempfile.TemporaryDirectory() as room:
            talk = Talk(pane, 30, 3, ["sh", "-c", script, room + "/go"])
            talk.until(lambda: talk.rows() == ["ready"])
            other = threading.Thread(target=talk.type, args=[typed], daemon=True)
            other.start()
            before = -1
            while talk.typed > before:  # (until nothing more is taken)
                before = talk.typed
                other.join(0.2)
            is_held = other.is_alive()
            open(room + "/go", "w").close()
            talk.until(lambda: talk.program.poll() is not None)
        yield "what %s and not read does not stop the pane, and is read later" % name, None if talk.rows() == [wanted] else "it shows %r" % talk.rows()
        if is_bounded:
            yield "and not all of it is taken before", None if is_held else "it is"
        talk.end()


def cases(pane):
    if not os.path.exists(pane):
        return
    yield from read_cases(pane)
    yield from escape_cases(pane)
    yield from asked_cases(pane)
    yield from answer_cases(pane)
    yield from told_cases(pane)
    yield from queue_cases(pane)
