"""How the programs read files and write one: rows for tests/programs.

What is written of several files is what the program writes of each alone, from standard input, one after the
other; so no text stands here twice. In a page each of them has a heading and a <pre> of its own.
"""

import errno
import functools
import os
import re
import resource
import shutil
import signal
import stat
import subprocess
import tempfile
import time

from lib import needs
from lib import open_strings
from lib.expected_pages import in_blocks

NOBODY = 65534
# how a heading has a name that stands there in other words; a title has all but the first so too
HEADINGS = {
    "-": "standard input",
    "a<b>&\"'.log": "a&lt;b&gt;&amp;&quot;&#39;.log",
    "a\x1b[31m b\u202e": "a&lt;U+001B&gt;[31m b&lt;U+202E&gt;",
    "no\x1b[31m": "no&lt;U+001B&gt;[31m",
    "no\x9b": "no&lt;U+009B&gt;",
}
OF_ONE_FILE = "ansi2screen", "ansi2svg"
PARTS = [b"\x1b[1mone\x1b[0m\n", b"tw\xe2\x82", b"\xaco\n\x1b[3", b"1mthree\r\n", b""]


class Rows:
    """The rows of a program with certain words. `alone` are those by which it writes a text with nothing around it."""

    def __init__(self, name, path, words, alone, run, differs):
        self.name, self.words, self.alone, self.run, self.differs = name, words, alone, run, differs
        self.takes_many = name not in OF_ONE_FILE
        # what it writes of a file in a folder, and what that is named after the file
        self.what, self.extension = ("page", ".html") if name == "ansi2html" else ("text", ".txt")
        self.room = os.path.realpath(tempfile.mkdtemp())
        os.chmod(self.room, 0o755)
        # (for a user who may not look into this repository)
        self.path = os.path.join(self.room, name)
        shutil.copy(path, self.path)
        os.chmod(self.path, 0o755)
        # the names of two files, or of the one that is taken, and their texts
        self.two = ["part0", "part3"][: 1 + self.takes_many]
        self.texts = [PARTS[0], PARTS[3]][: 1 + self.takes_many]
        for number, part in enumerate(PARTS):
            self.put("part%d" % number, part)
        os.mkdir(self.at("folder"))
        os.symlink("loop", self.at("loop"))

    def at(self, name):
        return os.path.join(self.room, name)

    def put(self, name, data, mode=0o644):
        with open(self.at(name), "wb") as file:
            file.write(data)
        os.chmod(self.at(name), mode)

    def read(self, name):
        with open(self.at(name), "rb") as file:
            return file.read()

    def ran(self, *words, given=b"", before=None, by=(), **how):
        """Runs the program in the folder of the files; `by` are words of a command that runs it."""

        def begin():
            os.chdir(self.room)
            if before:
                before()

        return self.run([*by, self.path, *self.words, *words], given, before=begin, **how)

    def of_each(self, *parts, names=()):
        """What is written of these texts, one after another. In a page each of several has its file's name as a heading, and a text that is
        alone the last part of that name as the title."""
        around = self.run([self.path, *self.words], b"").out
        empty = self.run([self.path, *self.alone], b"").out
        written = [self.run([self.path, *self.alone], part).out for part in parts]
        if self.words == self.alone:
            return b"".join(written)
        texts = list(map(in_blocks, written))
        # (what stands around the text of nothing is the head and the tail)
        assert not empty, empty
        at = around.index(b"<pre>\n")
        head, begin, end, tail = around[:at], b"<pre>\n", b"</pre>\n", around[at:].partition(b"</pre>\n")[2]
        if len(texts) == 1:
            last = os.path.basename(names[0]) if names else ""
            title = b"Terminal output" if last in ("", "-") else HEADINGS.get(last, last).encode()
            return head.replace(b"<title>Terminal output<", b"<title>%s<" % title) + begin + texts[0] + end + tail
        assert len(names) == len(texts), names
        headings = [b"<h2>%s</h2>\n" % HEADINGS.get(it, it).encode() for it in names]
        return head + b"".join(it + begin + text + end for it, text in zip(headings, texts)) + tail

    def said(self, *lines):
        """What stands on standard error: for each name its reason."""
        return b"".join(b"%s: %s: %s\n" % (self.name.encode(), at, os.strerror(why).encode()) for at, why in lines)

    def left(self):
        return sorted(os.listdir(self.room))

    def clear_out(self):
        """Removes what is written, and what is left of it, so that the next row begins anew."""
        for name in self.left():
            if name == "out" or re.fullmatch(r"out\.\d+\.new", name):
                os.remove(self.at(name))


def drop_rights():
    """Goes on as a user whom no file is for, where root runs the tests."""
    if os.geteuid() == 0:
        os.setgroups([])
        os.setgid(NOBODY)
        os.setuid(NOBODY)


def limit(size):
    signal.signal(signal.SIGXFSZ, signal.SIG_IGN)
    resource.setrlimit(resource.RLIMIT_FSIZE, (size, size))


def file_cases(name, path, words, alone, run, differs):
    """Files that are read, and those that can't be."""
    rows = Rows(name, path, words, alone, run, differs)
    try:
        yield from read_cases(rows)
        if rows.takes_many:
            yield from cut_off_cases(rows)
            yield from piece_cases(rows)
        yield from beginning_cases(rows)
        yield from name_cases(rows)
        yield from growing_cases(rows)
        yield from written_cases(rows)
        yield from saved_cases(rows)
        yield from linked_cases(rows)
        yield from same_file_cases(rows)
        yield from kept_cases(rows)
        yield from taken_cases(rows)
        yield from memory_cases(rows)
        if rows.takes_many:
            yield from folder_cases(rows)
    finally:
        shutil.rmtree(rows.room)


def read_cases(rows):
    names = ["part%d" % it for it in range(len(PARTS))]
    for count in (1, 2, len(PARTS)) if rows.takes_many else (1,):
        ended = rows.ran(*names[:count])
        yield "%d files" % count, rows.differs(ended, out=rows.of_each(*PARTS[:count], names=names[:count]))
    given = b"\x1b[3mfrom standard input"
    rows_of_words = [(["-"], [given]), (["--", "-"], [given]), (["--"], [given])]
    if rows.takes_many:
        rows_of_words += [
            (["part1", "part1"], [PARTS[1], PARTS[1]]),
            (["part0", "-", "part3"], [PARTS[0], given, PARTS[3]]),
            (["-", "part0", "-"], [given, PARTS[0], b""]),
        ]
    for words, parts in rows_of_words:
        ended = rows.ran(*words, given=given)
        yield "the words %s" % " ".join(words), rows.differs(ended, out=rows.of_each(*parts, names=[it for it in words if it != "--"]))
    faults = [("missing", errno.ENOENT), ("folder", errno.EISDIR), ("part0/below", errno.ENOTDIR), ("loop", errno.ELOOP)]
    faults.append(("a" * 300, errno.ENAMETOOLONG))
    for at, why in faults:
        said, words = rows.said((at.encode(), why)), (["part0", at, "part3"] if rows.takes_many else [at])
        parts = [PARTS[0], b"", PARTS[3]] if rows.takes_many else [b""]
        ended = rows.ran(*words)
        wanted = {"status": 1, "err": said, "out": rows.of_each(*parts, names=words)}
        yield "%s: %s" % (" ".join(words)[:30], os.strerror(why)), rows.differs(ended, **wanted)
    if rows.takes_many:
        ended = rows.ran("missing", "folder", "missing")
        said = rows.said((b"missing", errno.ENOENT), (b"folder", errno.EISDIR), (b"missing", errno.ENOENT))
        wanted = rows.of_each(b"", b"", b"", names=("missing", "folder", "missing"))
        yield "faults alone", rows.differs(ended, status=1, err=said, out=wanted)
        many = ["part0"] * 40
        ended = rows.ran(*many, before=lambda: resource.setrlimit(resource.RLIMIT_NOFILE, (10, 10)))
        yield "more files than it may have open at once", rows.differs(ended, out=rows.of_each(*[PARTS[0]] * 40, names=many))
        for name in HEADINGS:
            if name != "-":
                rows.put(name, PARTS[0])
                ended = rows.ran("part3", name)
                yield "the name %s among others" % name, rows.differs(ended, out=rows.of_each(PARTS[3], PARTS[0], names=("part3", name)))
                os.remove(rows.at(name))
    rows.put("secret", b"secret\n", 0o600 if os.geteuid() == 0 else 0)
    names = ["secret", "part0"][: 1 + rows.takes_many]
    ended = rows.ran(*names, before=drop_rights)
    out = rows.of_each(b"", PARTS[0], names=names) if rows.takes_many else rows.of_each(b"")
    wanted = {"status": 1, "err": rows.said((b"secret", errno.EACCES)), "out": out}
    yield "a file that it may not read", rows.differs(ended, **wanted)
    os.remove(rows.at("secret"))
    with open("/dev/full", "wb") as full:
        why = b"%s: write failed: No space left on device (os error 28)\n" % rows.name.encode()
        ended = rows.ran(*rows.two, out=full)
        yield "files onto a full disk", rows.differs(ended, status=1, err=why)
        yield "a fault that cannot be said", rows.differs(rows.ran("missing", err=full), status=1, out=rows.of_each(b"", names=["missing"]))
    reading, writing = os.pipe()
    os.close(reading)
    yield "files into a closed pipe", rows.differs(rows.ran(*rows.two, out=writing), status=141)
    os.close(writing)


def cut_off_cases(rows):
    """Files that end inside of a string: each is said by its name and the byte at which the string begins."""
    # (a read gives 4,096 bytes)
    parts = [
        (b"start\n\x1b]0;title without end\nline2\n", 6),
        (b"a" * 4095 + b"\x1b]0;title", 4095),
        (b"a" * 5000 + b"\x1b[m\x1b_bc", 5003),
        (b"a" * 4090 + b"\x1bP1;2;3;4qtext", 4090),
        (b"\x1b]0;title\x1b\\\x1b[1", None),
        (b"\x1bX" + b"a" * 9000, 0),
    ]
    names = ["cut%d" % it for it in range(len(parts))]
    for name, (part, _) in zip(names, parts):
        rows.put(name, part)
    line = b"%s: %s: ends inside a string that begins at byte %d\n"
    said = [line % (rows.name.encode(), name.encode(), begin) for name, (_, begin) in zip(names, parts) if begin is not None]
    texts = [part for part, _ in parts]
    for name, (part, begin) in zip(names, parts):
        err = b"" if begin is None else line % (rows.name.encode(), name.encode(), begin)
        yield "%s, which ends in a string" % name, rows.differs(rows.ran(name), err=err, out=rows.of_each(part, names=[name]))
    yield "files that end in strings", rows.differs(rows.ran(*names), err=b"".join(said), out=rows.of_each(*texts, names=names))
    rows.put("a\nb", parts[0][0])
    err = rows.name.encode() + b': "a\\nb": ends inside a string that begins at byte 6\n'
    yield "one whose name could drive a terminal", rows.differs(rows.ran("a\nb"), err=err, out=rows.of_each(parts[0][0], names=["a\nb"]))
    for name in [*names, "a\nb"]:
        os.remove(rows.at(name))


def name_cases(rows):
    for at in ("-dash", "--shown", "-h", "a b", "ä€😀", "two\nlines", "a\x1b[31m b\u202e"):
        rows.put(at, PARTS[0])
        yield "-- and the name %r" % at, rows.differs(rows.ran("--", at), out=rows.of_each(PARTS[0], names=[at]))
        yield "the name ./%r" % at, rows.differs(rows.ran("./" + at), out=rows.of_each(PARTS[0], names=[at]))
        os.remove(rows.at(at))
    for at, shown in (("", b'""'), ("no\x1b[31m", b'"no\\u{1b}[31m"'), ("no\x9b", b'"no\\u{9b}"')):
        ended = rows.ran("--", at)
        yield "the name %r is said as text" % at, rows.differs(ended, status=1, err=rows.said((shown, errno.ENOENT)), out=rows.of_each(b"", names=[at]))
    why = "%s: a word is no UTF-8: a file with such a name is given by < (see %s --help)\n" % (rows.name, rows.name)
    rows.put(b"\xff".decode("utf-8", "surrogateescape"), PARTS[0])
    for words in ([b"\xff"], [b"--", b"\xff"], [b"-o", b"\xff"], [b"-o\xff"], [b"--output=\xff"], [b"part0", b"\xff"], [b"--help", b"\xff"]):
        before = rows.left()
        why_not = rows.differs(rows.ran(*words), status=2, err=why.encode())
        yield "the words %s, no UTF-8" % words, why_not or (rows.left() != before and "it makes files")
    os.remove(rows.at(b"\xff".decode("utf-8", "surrogateescape")))
    if rows.words[-1:] == ["--shown"]:
        yield from size_name_cases(rows)
    help = rows.run([rows.path, "--help"])
    for words in (["-h"], ["missing", "-h"], ["-o", "missing/x", "-h"]):
        yield " ".join([*words, "says what --help says"]), rows.differs(rows.ran(*words), out=help.out)
    why = b"%s: -o wants the name of a file (see %s --help)\n" % (2 * (rows.name.encode(),))
    yield "-o and nothing behind it", rows.differs(rows.ran("part0", "-o"), status=2, err=why)


def size_name_cases(rows):
    """Behind --shown a word of a size's form is its value, and any other names a file."""
    for at in ("9x", "x9", "9X", "9x9x9", "9X9x9", "+9x9", "9x 9", "9x-9", "9", "９x９"):
        rows.put(at, PARTS[0])
        yield "the name %s behind --shown" % at, rows.differs(rows.ran(at), out=rows.of_each(PARTS[0], names=[at]))
        os.remove(rows.at(at))
    rows.put("9x9", PARTS[0])
    for words in (["--", "9x9"], ["./9x9"], ["9x9", "9x9"], ["9X9", "9x9"], ["9x9", "--", "9x9"], ["--shown=8x8", "9x9"]):
        yield "the name 9x9 by %s" % words, rows.differs(rows.ran(*words), out=rows.of_each(PARTS[0], names=["9x9"]))
    yield "9x9 alone is no name", rows.differs(rows.ran("9x9", given=PARTS[3]), out=rows.of_each(PARTS[3]))
    os.remove(rows.at("9x9"))


def named_cases(path, run, differs):
    """What parselog says of words that name files which are there. A file comes by standard input."""
    room = os.path.realpath(tempfile.mkdtemp())
    try:
        for name in ("a", "log", "canon", "Log", "-", "-dash", os.fsdecode(b"caf\xe9")):
            with open(os.path.join(room, name), "wb") as file:
                file.write(PARTS[0] + b"\x1b[?25l")
        ran = lambda *words, given=b"B": run([path, *words], given, before=lambda: os.chdir(room))
        usage = b"usage: parselog [log|canon]\n"
        for words in (["a"], ["./log"], ["Log"], ["-"], ["-dash"], ["log", "a"], ["canon", "a"], ["canon", "log"], ["log", "-"], ["--", "a"]):
            yield "the words %s, where such a file is" % words, differs(ran(*words), status=2, err=usage)
        for words in ([], ["log"]):
            yield "the words %s read standard input alone" % words, differs(ran(*words), out=b"print U+0042\n")
        for words in (["log"], ["canon"]):
            with open(room + "/a", "rb") as file:
                yield "a file to %s by <" % words, differs(ran(*words, given=file), out=ran(*words, given=PARTS[0] + b"\x1b[?25l").out)
        for words in ([b"caf\xe9"], ["log", b"caf\xe9"]):
            yield "the words %s, no UTF-8" % words, differs(ran(*words), status=1, err=b"parselog: arguments not read\n")
    finally:
        shutil.rmtree(room)


def moved_by(process, count):
    """How many bytes a read gives a process, and a write takes, once it has read so many and does neither for a while."""
    found, before = {}, None
    for _ in range(600):
        before = found
        time.sleep(0.1)
        with open("/proc/%d/io" % process) as it:
            found = dict(re.findall(r"(\w+): (\d+)", it.read()))
        if int(found["rchar"]) >= count and found == before:
            break
    return [int(found[moved]) // max(1, int(found[calls])) for moved, calls in (("rchar", "syscr"), ("wchar", "syscw"))]


def beginning_cases(rows):
    """Files that begin as UTF-16 or as an asciicast: a word is said, once, and they are read all the same."""
    for number, front in enumerate([*(it for marks in open_strings.BEGINNINGS for it in marks), b"\xff", b"\xfe\xfe", b'{"version": 4,', b' {"version": 2,', b'{"version": 2']):
        part = front + b' "width": 80}\r\n[0.1, "o", "text"]\r\n'
        part = part if front[:1] == b"{" else front + "text\n".encode("utf-16-le")
        rows.put("begun", part)
        # (what is written of it comes first in another file of this name, whose first line is empty)
        rows.put("folder/begun", b"\x1b[m" + part)
        wanted = rows.ran("folder/begun").out
        said = open_strings.begins(rows.name, "begun", part)
        yield "the beginning %r" % front, ("nothing is known of it" if number < 6 and not said else None) or rows.differs(rows.ran("begun"), err=said, out=wanted)
        said = open_strings.begins(rows.name, "standard input", part)
        with subprocess.Popen([rows.path, *rows.words], stdin=subprocess.PIPE, stdout=subprocess.PIPE, stderr=subprocess.PIPE, bufsize=0) as program:
            for byte in part:
                program.stdin.write(bytes([byte]))
            out, err = program.communicate()
        found = (program.returncode, err) != (0, said)
        yield "the beginning %r, in pieces" % front, found and "status %s, %r and not %r" % (program.returncode, err, said)
    for at in ("begun", "folder/begun"):
        os.remove(rows.at(at))


def piece_cases(rows):
    """A long file, and then standard input, which waits: by then the file is read and written."""
    rows.put("log", b"a line\n" * 100_000)
    pipes = {"stdin": subprocess.PIPE, "stdout": subprocess.PIPE, "stderr": subprocess.PIPE}
    with subprocess.Popen([rows.path, *rows.words, "-o", rows.at("out"), rows.at("log"), "-"], **pipes) as program:
        found = moved_by(program.pid, os.path.getsize(rows.at("log")))
        program.communicate()
    yield "a file is read and written in large pieces", None if min(found) > 2000 else "a call moves %s bytes" % found
    os.remove(rows.at("log"))
    os.remove(rows.at("out"))


def growing_cases(rows):
    """A file that grows while it is read: what was added before its end was met is read too."""
    rows.put("log", b"a line\n" * 100_000)
    program = subprocess.Popen([rows.path, *rows.words, rows.at("log")], bufsize=0, stdout=subprocess.PIPE, stderr=subprocess.PIPE)
    first = program.stdout.read(1) if rows.takes_many else b""  # (it has begun, and waits for its reader)
    with open(rows.at("log"), "ab") as file:
        file.write(b"another line\n" * 1000)
    out, err = program.communicate(timeout=60)
    wanted = [rows.of_each(rows.read("log"), names=["log"])] + ([] if first else [rows.of_each(b"a line\n" * 100_000, names=["log"])])
    why = None if first + out in wanted and (program.returncode, err) == (0, b"") else "it writes %d bytes" % len(out)
    yield "a file that grows", why
    os.remove(rows.at("log"))


def written_cases(rows):
    """A file that is written."""
    whole = rows.of_each(*rows.texts, names=rows.two)
    before = rows.left()
    for words in (["-o", "out"], ["--output=out"], ["-o", "other", "--output=out"], ["--output=other", "-o", "out"], ["-o", "--", "-o", "out"], ["-o", "./out"], ["-oout"], ["-oother", "-oout"], ["--output=other", "-o./out"]):
        why = rows.differs(rows.ran(rows.two[0], *words, *rows.two[1:]))
        found = rows.read("out") if os.path.exists(rows.at("out")) else None
        why = why or (found != whole and "it has %r" % found) or (rows.left() != sorted([*before, "out"]) and "there are %s" % rows.left())
        yield " ".join([*words, "makes the file"]), why
        umask = os.umask(0)
        os.umask(umask)
        mode = stat.S_IMODE(os.stat(rows.at("out")).st_mode)
        yield "its rights are the usual ones", mode != 0o666 & ~umask and "they are %o" % mode
        os.remove(rows.at("out"))
    for mode in (0o640, 0o444, 0o777):
        rows.put("out", b"old\n", mode)
        if os.geteuid() == 0:  # (who else may give a file away?)
            os.chown(rows.at("out"), NOBODY, NOBODY)
        owners = os.stat(rows.at("out"))[stat.ST_UID : stat.ST_GID + 1]
        why = rows.differs(rows.ran("-o", "out", *rows.two)) or (rows.read("out") != whole and "it has %r" % rows.read("out"))
        found = stat.S_IMODE(os.stat(rows.at("out")).st_mode)
        yield "-o over a file with rights %o" % mode, why or (found != mode and "they are %o" % found)
        found = os.stat(rows.at("out"))[stat.ST_UID : stat.ST_GID + 1]
        yield "it has its owner and group", found != owners and "they are %s, and not %s" % (found, owners)
        os.remove(rows.at("out"))
    rows.put("log", PARTS[0])
    why = rows.differs(rows.ran("-o", "log", "log")) or (rows.read("log") != rows.of_each(PARTS[0], names=["log"]) and "it has %r" % rows.read("log"))
    yield "the output is the input", why
    os.symlink("log", rows.at("link"))
    rows.put("log", b"old\n")
    why = rows.differs(rows.ran("-o", "link", "part0")) or (rows.read("log") != rows.of_each(PARTS[0], names=["part0"]) and "it has %r" % rows.read("log"))
    yield "-o by the name of a link", why or (not os.path.islink(rows.at("link")) and "the link is gone")
    os.remove(rows.at("link"))
    os.remove(rows.at("log"))
    rows.put("out.0.new", b"of another\n")
    why = rows.differs(rows.ran("-o", "out", "part0"))
    yield "-o beside a file out.0.new", why or (rows.read("out.0.new") != b"of another\n" and "that is gone")
    os.remove(rows.at("out"))
    os.remove(rows.at("out.0.new"))
    for words in (["-o", "-"], ["-o-"], ["-oout", "-o-"]):
        yield "%s is standard output" % words, rows.differs(rows.ran(*words, "part0"), out=rows.of_each(PARTS[0], names=["part0"]))
    yield "-o /dev/null", rows.differs(rows.ran("-o", "/dev/null", "part0")) or (not stat.S_ISCHR(os.stat("/dev/null").st_mode) and "it is gone")
    yield "no other file is left", rows.left() != before and "there are %s" % rows.left()


def saved_cases(rows):
    """What is called of the C library, in order (tests/callers/saving.c says it): nobody else may open the new file before it has the
    rights of the old one, and what is in it is on the disk before it takes its place."""
    if not shutil.which("cc"):
        yield needs.left_out("the calls by which a file is written", "there is no cc")
        return
    source, library = os.path.join(os.path.dirname(os.path.dirname(os.path.realpath(__file__))), "callers/saving.c"), rows.at("saving.so")
    subprocess.run(["cc", "-Wall", "-Wextra", "-Werror", "-shared", "-fPIC", source, "-o", library, "-ldl"], check=True)
    beneath = lambda *known: ["env", "LD_PRELOAD=" + library, *known]
    for mode, wanted in (None, "open 666, fsync, rename, "), (0o640, "open 600, fchown 65534 65534, fchmod 640, fsync, rename, "):
        if mode is not None:
            rows.put("out", b"old\n", mode)
            os.chown(rows.at("out"), *[NOBODY if os.geteuid() == 0 else -1] * 2)
        found = rows.ran("-o", "out", "part0", by=beneath()).err.decode().replace("\n", ", ")
        if os.geteuid() != 0:  # (the file is its user's before)
            wanted = wanted.replace("fchown 65534 65534, ", "")
        yield "-o over %s file, by its calls" % ("no" if mode is None else "a"), found != wanted and "they are %s" % found
        os.remove(rows.at("out"))
    yield "-o /dev/null, by its calls: it is made by none, and cut by none", rows.differs(rows.ran("-o", "/dev/null", "part0", by=beneath()))
    for call in ("fchmod", "fsync", "rename"):
        rows.put("out", b"old\n", 0o640)
        before = rows.left()
        why = rows.differs(rows.ran("-o", "out", "part0", by=beneath("REFUSED=" + call)), status=1, err=rows.said((b"out", errno.EPERM)))
        why = why or (rows.read("out") != b"old\n" and "it has %r" % rows.read("out")) or left_differs(rows, before)
        yield "-o, where %s is refused: the old file stays, and the new one goes" % call, why
        rows.clear_out()
    yield from device_cases(rows, beneath("OTHER_DEVICES=1"))
    os.remove(library)


def device_cases(rows, by):
    """Files of one number on devices of their own are not the same file: as many as there are disks have it."""
    for words, given in (["log"], b""), ([], "log"), (["-"], "log"):
        rows.put("log", PARTS[0])
        with open(rows.at("out"), "ab") as out, open(rows.at(given or "part0"), "rb") as read:
            why = rows.differs(rows.ran(*words, given=read, out=out, by=by))
        why = why or (rows.read("out") != rows.of_each(PARTS[0], names=words) and "it has %r" % rows.read("out"))
        yield "%s, with the number of standard output on another device" % " ".join(words or ["standard input"]), why
        rows.clear_out()
    os.remove(rows.at("log"))


def linked_cases(rows):
    """A link leads to what it names, be that a pipe or nothing so far; and a closed input or standard error is no file."""
    whole = rows.of_each(PARTS[0], names=["part0"])
    os.symlink("/proc/self/fd/1", rows.at("link"))
    why = rows.differs(rows.ran("-o", "link", "part0"), out=whole)
    yield "-o by a link to standard output, a pipe", why or (not os.path.islink(rows.at("link")) and "the link is gone")
    os.remove(rows.at("link"))
    os.symlink("folder/further", rows.at("link"))
    os.symlink("new", rows.at("folder/further"))  # (beside it)
    why = rows.differs(rows.ran("-o", "link", "part0")) or (rows.read("folder/new") != whole and "it has %r" % rows.read("folder/new"))
    yield "-o by links that lead to nothing so far", why or (not all(map(os.path.islink, map(rows.at, ("link", "folder/further")))) and "a link is gone")
    for at in ("link", "folder/further", "folder/new"):
        os.remove(rows.at(at))
    rows.put("cut", b"text\n\x1b]0;title")
    for closed in [2], [0, 2], [1, 2], [0, 1, 2]:
        why = rows.differs(rows.ran("-o", "out", "cut", before=lambda: [os.close(it) for it in closed]))
        why = why or (rows.read("out") != rows.of_each(b"text\n", names=["cut"]) and "it has %r" % rows.read("out"))
        yield "-o, and of the standard streams %s are closed" % closed, why
        rows.clear_out()
    os.remove(rows.at("cut"))
    why = b"%s: read failed: %s (os error %d)\n" % (rows.name.encode(), os.strerror(errno.EBADF).encode(), errno.EBADF)
    why = rows.differs(rows.ran("-o", "out", before=lambda: os.close(0)), status=1, err=why)
    yield "-o, and standard input is closed", why or (os.path.exists(rows.at("out")) and "it is there")


def same_file_cases(rows):
    """A file that is also standard output: what is written there would be read again, with no end."""
    line = b"%s: %%s: input file is output file\n" % rows.name.encode()
    for at, words, given in (b"log", ["log"], b""), (b"link", rows.two[1:] + ["link"], b""), (b"standard input", [], "log"), (b"standard input", ["-"], "log"):
        rows.put("log", PARTS[0])
        os.symlink("log", rows.at("link"))
        with open(rows.at("log"), "ab") as out, open(rows.at(given or "part0"), "rb") as read:
            why = rows.differs(rows.ran(*words, given=read, out=out), status=1, err=line % at)
        yield "%s, to which the output is added" % " ".join(words or ["standard input"]), why or (rows.read("log") != PARTS[0] and "it is longer")
        os.remove(rows.at("link"))
    with open(rows.at("log"), "ab") as out:
        why = rows.differs(rows.ran("-o", "out", "log", out=out)) or (rows.read("out") != rows.of_each(PARTS[0], names=["log"]) and "it has %r" % rows.read("out"))
    yield "a file that is standard output, which is not written to", why
    with open("/dev/null", "r+b") as it:
        yield "/dev/null is both", rows.differs(rows.ran(given=it, out=it))
    os.remove(rows.at("log"))
    os.remove(rows.at("out"))


def pages_of(rows, *names, title=None):
    """What is written of each of these files alone, by the name of its output; each page has the file's name as its title."""
    found = {}
    for name in names:
        last = os.path.basename(name)
        words = [] if rows.words == rows.alone else ["--title=" + (title or last)]
        found[last + rows.extension] = rows.ran(*words, "--", name).out
    return found


def folder_cases(rows):
    """A folder that is written to: a page, a fragment or a text of each file."""
    before = rows.left()
    names = ["part0", "folder/part3", "./part1", "folder/a<b>&.log", "-dash"]
    made = ["folder/part3", "folder/a<b>&.log", "-dash"]
    for number, name in enumerate(made):
        rows.put(name, PARTS[number])
    wanted = pages_of(rows, *names)
    for words, at in [
        (["-o", "pages/"], "pages"),
        (["-opages/"], "pages"),
        (["--output=pages/"], "pages"),
        (["-o", "out", "--output=pages/"], "pages"),
        (["-o", "new/and/deep//"], "new/and/deep"),
        (["-o", rows.at("pages/")], "pages"),
    ]:
        # (one file is read and one is written at a time)
        ended = rows.ran(*words, "--", *names, before=lambda: resource.setrlimit(resource.RLIMIT_NOFILE, (7, 7)))
        why = rows.differs(ended) or pages_differ(rows, at, wanted)
        yield "%s makes a page of each file" % " ".join(words[-2:])[-30:], why or left_differs(rows, before, at, "-dash")
        shutil.rmtree(rows.at(at.split("/")[0]))
    os.mkdir(rows.at("pages"))
    for old in ("part0" + rows.extension, "other"):
        rows.put("pages/" + old, b"old\n")
    said = rows.said((b"missing", errno.ENOENT), (b"folder", errno.EISDIR))
    why = rows.differs(rows.ran("-o", "pages/", "missing", "part0", "folder", "--", "-dash"), status=1, err=said)
    wanted = {**pages_of(rows, "part0", "-dash"), "other": b"old\n"}
    yield "of files that can't be read there is no page, and others have theirs", why or pages_differ(rows, "pages", wanted)
    rows.put("pages/missing" + rows.extension, b"old\n")
    why = rows.differs(rows.ran("-o", "pages/", "missing"), status=1, err=rows.said((b"missing", errno.ENOENT)))
    yield "the page of one that is missing stays", why or pages_differ(rows, "pages", {**wanted, "missing" + rows.extension: b"old\n"})
    shutil.rmtree(rows.at("pages"))
    why = rows.differs(rows.ran("-o", "./", "part0")) or pages_differ(rows, ".", pages_of(rows, "part0"), among=True)
    yield "a page beside its file", why
    os.remove(rows.at("part0" + rows.extension))
    if rows.words != rows.alone:
        why = rows.differs(rows.ran("-o", "pages/", "--title=T", "part0", "part1"))
        yield "a title for all", why or pages_differ(rows, "pages", pages_of(rows, "part0", "part1", title="T"))
        shutil.rmtree(rows.at("pages"))
    if rows.name == "ansi2html" and "--shown" not in rows.words:
        numbered = {name + ".html": rows.ran("--lines", *([] if "--fragment" in rows.words else ["--title=" + name]), name).out for name in ("part0", "part1")}
        why = rows.differs(rows.ran("-o", "pages/", "--lines", "part0", "part1")) or pages_differ(rows, "pages", numbered)
        yield "--lines, a page a file", why
        shutil.rmtree(rows.at("pages"))
    yield from refused_cases(rows)
    for name in made:
        os.remove(rows.at(name))
    yield "no other file is left by pages", rows.left() != before and "there are %s" % rows.left()


def refused_cases(rows):
    """Files that have no pages of their own in a folder, which is not made; and folders that can't be."""
    before = rows.left()
    why = ("%s: a folder takes a %s of each file that is named (see %s --help)\n" % (rows.name, rows.what, rows.name)).encode()
    yield "-o pages/ and no name is refused", rows.differs(rows.ran("-o", "pages/", given=PARTS[0]), status=2, err=why) or left_differs(rows, before)
    for names, shown in [(["-"], "-"), (["part0", "-"], "-"), ([".."], ".."), (["part0", "folder/.."], "folder/.."), ([""], "")]:
        why = '%s: "%s": no %s in a folder can be named after it (see %s --help)\n' % (rows.name, shown, rows.what, rows.name)
        why = rows.differs(rows.ran("-o", "pages/", *names, given=PARTS[0]), status=2, err=why.encode())
        yield "-o pages/ %s is refused" % " ".join(names), why or left_differs(rows, before)
    for names, shown in [(["part0", "folder/part0"], "part0"), (["part1", "part0", "./part0", "part1"], "part1"), (["part0", "part0/"], "part0")]:
        why = '%s: "%s": two files of this name would be one %s in the folder (see %s --help)\n' % (rows.name, shown, rows.what, rows.name)
        why = rows.differs(rows.ran("-o", "pages/", *names), status=2, err=why.encode())
        yield "-o pages/ %s is refused" % " ".join(names), why or left_differs(rows, before)
    for at, why in [("part0/", errno.EEXIST), ("part0/below/", errno.ENOTDIR), ("loop/", errno.EEXIST)]:
        said = rows.said((at.encode(), why))
        yield "-o %s can't be made" % at, rows.differs(rows.ran("-o", at, "part1"), status=1, err=said) or left_differs(rows, before)
    if rows.name == "ansi2html":
        why = rows.differs(rows.run([rows.path, "--stylesheet", "-o", rows.at("folder/")], b""), status=1, err=rows.said((rows.at("folder/").encode(), errno.EISDIR)))
        yield "a stylesheet is no page", why
    os.mkdir(rows.at("pages"), 0o777)
    os.chmod(rows.at("pages"), 0o555)
    said = rows.said(*((b"pages/%s%s" % (it, rows.extension.encode()), errno.EACCES) for it in (b"part0", b"part1")))
    yield "a folder that it may not write to", rows.differs(rows.ran("-o", "pages/", "part0", "part1", before=drop_rights), status=1, err=said)
    os.rmdir(rows.at("pages"))


def pages_differ(rows, at, wanted, among=False):
    """Says how the files of a folder differ from what they are to be."""
    found = {name: rows.read(os.path.join(at, name)) for name in (wanted if among else os.listdir(rows.at(at)))}
    for name in sorted({*found, *wanted}):
        if found.get(name) != wanted.get(name):
            return "%s is %r and not %r" % (name, found.get(name), wanted.get(name))
    return None


def left_differs(rows, before, *others):
    """Says which files are there that were not, but for some."""
    more = set(rows.left()) - {*before, *(it.split("/")[0] for it in others)}
    return "there are %s" % sorted(more) if more else None


def kept_cases(rows):
    """Where not all goes well, what stood there stays, and the new file is gone."""
    made = [("no/out", errno.ENOENT), ("part0/out", errno.ENOTDIR), ("folder", errno.EISDIR), ("loop", errno.ELOOP)]
    made.append(("folder/" + "a" * 255, errno.ENAMETOOLONG))
    for at, why in made:
        ended = rows.ran("-o", at, "missing")
        yield "-o %s can't be made" % at[:20], rows.differs(ended, status=1, err=rows.said((at.encode(), why)))
    os.mkdir(rows.at("locked"))
    rows.put("locked/out", b"old\n", 0o644)
    os.chmod(rows.at("locked"), 0o555)
    ended = rows.ran("-o", "locked/out", "part0", before=drop_rights)
    yield "-o in a folder where it may make no file", rows.differs(ended, status=1, err=rows.said((b"locked/out", errno.EACCES)))
    os.chmod(rows.at("locked"), 0o755)
    shutil.rmtree(rows.at("locked"))
    yield "-o /dev/full", rows.differs(rows.ran("-o", "/dev/full", "part0"), status=1, err=rows.said((b"/dev/full", errno.ENOSPC)))
    rows.put("much", b"a line\n" * 20_000)
    for old in (None, b"old\n"):
        before = rows.left()
        if old is not None:
            rows.put("out", old, 0o640)
        beside, much = ["part0"] * rows.takes_many, len(rows.of_each(rows.read("much"), names=["much"]))
        faults = [
            ("an input that is not there", [*beside, "missing"], (b"missing", errno.ENOENT), None),
            ("an input that is not there, first", ["missing", *beside], (b"missing", errno.ENOENT), None),
            ("an input that is a folder", [*beside, "folder"], (b"folder", errno.EISDIR), None),
        ]
        for room in (0, much // 2, much - 1):
            faults.append(("a disk with room for %d bytes" % room, ["much"], (b"out", errno.EFBIG), functools.partial(limit, room)))
        for name, names, said, first in faults:
            why = rows.differs(rows.ran("-o", "out", *names, before=first), status=1, err=rows.said(said))
            found = rows.read("out") if os.path.exists(rows.at("out")) else None
            why = why or (found != old and "it has %r" % found) or (set(rows.left()) - set(before) - {"out"} and "there are %s" % rows.left())
            yield "-o, %s: %s" % (name, "no file is made" if old is None else "the old one stays"), why
        ended = rows.ran("-o", "out", "much", before=functools.partial(limit, much))
        why = rows.differs(ended) or (rows.read("out") != rows.of_each(rows.read("much"), names=["much"]) and "it has another text")
        yield "-o on a disk with room for all", why
        os.remove(rows.at("out"))
    os.remove(rows.at("much"))


def taken_cases(rows):
    """The new file has another name than what stands there: of a hundred that are tried one has to be free."""
    taken = ["out.%d.new" % number for number in range(100)]
    for name in taken:
        rows.put(name, b"of another\n")
    why = rows.differs(rows.ran("-o", "out", "part0"), status=1, err=b"%s: out: entity already exists\n" % rows.name.encode())
    yield "-o beside a hundred files out.N.new", why or (os.path.exists(rows.at("out")) and "it is there")
    os.remove(rows.at(taken.pop()))
    why = rows.differs(rows.ran("-o", "out", "part0")) or (rows.read("out") != rows.of_each(PARTS[0], names=["part0"]) and "it has %r" % rows.read("out"))
    yield "-o beside all of them but the last", why
    yield "what stood there stays", [it for it in taken if rows.read(it) != b"of another\n"] and "it is another"
    rows.clear_out()


def memory_cases(rows):
    """A screen of 10 MB, in more and more memory: what is written is there whole, or it is said that memory is wanting, and no file is left."""
    if rows.name not in OF_ONE_FILE and rows.words[-1:] != ["--shown"]:
        return
    size = ["--size=500x500"] if rows.name in OF_ONE_FILE else ["--shown=500x500"]
    wanting = {"status": 1, "err": b"%s: out of memory\n" % rows.name.encode()}
    before = rows.left()
    for form in [[], ["--draw"], ["--updates"]] if rows.name == "ansi2screen" else [[]]:
        whole, words, told, faults = rows.ran(*size, *form, "part0").out, [*size, *form, "-o", "out", "part0"], set(), []
        for room in range(4, 100, 4):
            limited = functools.partial(resource.setrlimit, resource.RLIMIT_DATA, (room << 20, room << 20))
            ended = rows.ran(*words, before=limited)
            is_there = os.path.exists(rows.at("out"))
            told.add(is_there)
            why = rows.differs(ended, **({} if is_there else wanting)) or (is_there and rows.read("out") != whole and "it has %r" % rows.read("out"))
            why = why or left_differs(rows, before, "out")
            faults += ["in %d MB: %s" % (room, why)] if why else []
            rows.clear_out()
        yield "%s, in little memory" % " ".join(words), faults and faults[0] or (told != {False, True} and "it is there: %s" % told)
