#!/usr/bin/env python3
"""Records what terminal programs write, as streams that nobody here wrote.

Usage: bench/record.py FOLDER [NAME]..

Each program runs on a terminal of its own of 120 columns and 40 rows, is sent keys one after
another, and is ended; what it wrote stands in FOLDER/NAME.bin. Programs that are not installed
are left out, and said. The recordings are made anew each time and are not kept here: they hold
what the machine's own files and processes are called. bench/measure.py takes the folder by
--recordings, and tests/screen/compare.py takes the files.
"""

import fcntl
import os
import pty
import select
import shutil
import signal
import struct
import sys
import termios
import time

ROWS, COLUMNS = 40, 120
# At most so many bytes of each program, and so long between two keys.
MOST, BETWEEN = 1 << 20, 0.3
ARROW_DOWN, PAGE_DOWN = b"\x1b[B", b"\x1b[6~"

# name: the command, the keys that it is sent, and for how many seconds it runs
PROGRAMS = {
    "gcc": (["gcc", "-fsyntax-only", "-fdiagnostics-color=always", "-x", "c", os.path.abspath(__file__)], [], 4),
    "git": (["git", "-c", "pager.log=less -R", "log", "--graph", "--stat"], [b" ", b" ", b"/a\r", b"n", b"G"], 5),
    "htop": (["htop", "-d", "3"], [b"t", ARROW_DOWN, ARROW_DOWN, b"t", b"H", b"P"], 5),
    "less": (["less", "-R", "/etc/services"], [b" ", b" ", b"/tcp\r", b"n", b"n", b"g", b"G"], 4),
    "ls": (["ls", "--color=always", "--hyperlink=always", "-la", "/usr/lib", "/usr/bin"], [], 4),
    "man": (["man", "ls"], [b" ", b" ", b"/sort\r", b"n", b"g"], 5),
    "mc": (["mc", "-u"], [ARROW_DOWN, b"\t", ARROW_DOWN, b"\x1b3", PAGE_DOWN, b"\x1b0", b"\x1b9"], 6),
    "nano": (["nano", "/etc/services"], [b"\x17tcp\r", b"\x16", b"\x16", b"\x19", b"hello"], 5),
    "tmux": (
        # (its server ends with its client)
        ["tmux", "-L", "recorded", "new-session", "ls --color=always -la /usr/bin; top -b -n1; sleep 5"]
        + [";", "set", "-s", "exit-unattached", "on"],
        [b"\x02%", b"ls --color /etc\r", b"\x02\""],
        5,
    ),
    "top": (["top", "-d", "0.5", "-n", "4"], [], 5),
    "vim": (
        ["vim", "-n", "-u", "NONE", "-c", "syntax on", "-c", "set number hlsearch", os.path.abspath(__file__)],
        [b"/def\r", b"n", b"\x06", b"\x06", b":split\r", b"Gohello \xe2\x82\xac \xf0\x9f\x98\x80\x1b", b"gg"],
        6,
    ),
    "apt": (["apt-get", "-s", "-o", "APT::Color=1", "-o", "Dpkg::Progress-Fancy=1", "install", "gimp"], [], 6),
}


def recorded(command, keys, seconds, columns=COLUMNS, rows=ROWS):
    """What the command writes to its terminal: the pieces that came, each with the seconds since the start."""
    process, terminal = pty.fork()
    if process == 0:
        fcntl.ioctl(0, termios.TIOCSWINSZ, struct.pack("HHHH", rows, columns, 0, 0))
        os.execvpe(command[0], command, dict(os.environ, TERM="xterm-256color", LANG="C.UTF-8", COLORTERM="truecolor"))
    pieces, count, started, next_key = [], 0, time.monotonic(), time.monotonic() + 3 * BETWEEN
    keys = list(keys)
    while time.monotonic() - started < seconds and count < MOST:
        if select.select([terminal], [], [], 0.05)[0]:
            try:
                got = os.read(terminal, 1 << 16)
            except OSError:
                break
            if not got:
                break
            pieces.append((time.monotonic() - started, got))
            count += len(got)
        if keys and time.monotonic() > next_key:
            os.write(terminal, keys.pop(0))
            next_key = time.monotonic() + BETWEEN
    # (only this process, by its number)
    try:
        os.kill(process, signal.SIGKILL)
    except ProcessLookupError:
        pass
    os.close(terminal)
    os.waitpid(process, 0)
    return pieces


def main():
    if sys.argv[1:] == ["--help"]:
        print(__doc__.strip())
        return
    if len(sys.argv) < 2 or sys.argv[1].startswith("-"):
        sys.exit(__doc__)
    folder, names = sys.argv[1], sys.argv[2:] or list(PROGRAMS)
    os.makedirs(folder, exist_ok=True)
    for name in names:
        command, keys, seconds = PROGRAMS[name]
        if shutil.which(command[0]) is None:
            print("%-6s is not installed, and is left out" % name)
            continue
        written = b"".join(piece for _, piece in recorded(command, keys, seconds))
        with open(os.path.join(folder, name + ".bin"), "wb") as file:
            file.write(written)
        print("%-6s %7d bytes" % (name, len(written)), flush=True)


if __name__ == "__main__":
    main()
