"""What bash, zsh and fish complete of the programs' words, asked of them: rows for tests/documents."""

import fcntl
import os
import pty
import re
import select
import shutil
import struct
import subprocess
import tempfile
import termios
import time

from lib import needs

ROOT = os.path.dirname(os.path.dirname(os.path.dirname(os.path.realpath(__file__))))
PATIENCE = 30
# words that are typed, and to what they are completed where a folder has a file build.log alone
TYPED = {
    "ansi2html": [("--frag", "--fragment "), ("--ti", "--title="), ("", "build.log "), ("-o ", "-o build.log "), ("--output=", "--output=build.log "), ("--shown ", "--shown build.log ")],
    "ansi2screen": [("--dr", "--draw "), ("--si", "--size="), ("", "build.log "), ("-o b", "-o build.log ")],
    "ansi2svg": [("--cu", "--cursor "), ("--ti", "--title="), ("", "build.log "), ("-o b", "-o build.log ")],
    "ansi2text": [("--sa", "--safe "), ("", "build.log "), ("--lf b", "--lf build.log "), ("-o ", "-o build.log "), ("--shown ", "--shown build.log ")],
    "parselog": [("can", "canon "), ("< b", "< build.log "), ("canon < ", "canon < build.log ")],
}


def cases(name, listed):
    """The options of a program, beside those that its --help lists, and words that are typed, in each shell that is there."""
    words = ["log", "canon"] if name == "parselog" else []
    # (the value of --shown stands behind its = alone)
    valued = [it[:-1] for it in listed if it.endswith("=") and it[:-1] not in listed]
    yield from bash_cases(name, words, listed, valued)
    yield from meaning_cases(name)
    for shell, asked in (("zsh", zsh_cases), ("fish", fish_cases)):
        if shutil.which(shell):
            yield from asked(name, words, listed, valued)
        else:
            yield needs.left_out(shell, "there is no %s" % shell)


def bash_cases(name, words, listed, valued):
    path = os.path.join(ROOT, "completions/%s.bash" % name)

    def told(line, stands="compopt() { :; }"):
        asks = "%s; . %s; _%s %s %s; echo ${COMPREPLY[@]}" % (stands, path, name, name, line)
        return subprocess.run(["bash", "-c", asks], capture_output=True, text=True).stdout.split()

    # (`complete -p` says what bash does for a name: by this function, and where that knows of nothing, with files and with all else;
    # a program that takes words has files after < alone)
    found = subprocess.run(["bash", "-c", ". %s; complete -p %s" % (path, name)], capture_output=True, text=True).stdout
    wanted = "complete %s-F _%s %s\n" % ("" if words else "-o bashdefault -o default ", name, name)
    yield "bash asks that of %s, and else for %s" % (name, "nothing" if words else "files"), found != wanted and "it says %r" % found
    for word in ("--", "--s", "--o", "-", "x", ""):
        wanted = [it for it in [*words, *listed] if it.startswith(word) and (words or word.startswith("-"))]
        found = told("'%s' %s" % (word, name))
        yield "bash completes %s '%s'" % (name, word), found != wanted and "to %s" % found
    if words:
        found = told("'%s' %s" % (words[-1][0], words[0]), "COMP_CWORD=2")
        yield "bash completes %s %s %s to no word" % (name, words[0], words[-1][0]), found and "to %s" % found
        for before in ("<", ">", ">>"):
            found = told("'' '%s'" % before, 'compopt() { echo "$@"; }')
            yield "bash completes %s %s to files" % (name, before), found != ["-o", "default"] and "to %s" % found
        found = told("'bu' %s" % name, 'compopt() { echo "$@"; }')
        yield "bash completes %s bu to nothing" % name, found and "to %s" % found
    for word in [*valued, *(["-o"] if valued else [])]:
        found = told("--f %s" % word)
        yield "bash completes %s %s --f to no option" % (name, word), found and "to %s" % found
    for word in listed:
        # (a value stands right behind its =)
        found = told("%s %s" % (word, name), 'compopt() { echo "$@"; }')
        wanted = [*(["-o", "nospace"] if word.endswith("=") else []), *(it for it in listed if it.startswith(word))]
        yield "bash completes %s %s as it ends" % (name, word), found != wanted and "to %s" % found


def meaning_cases(name):
    """What fish and zsh show of an option is the same."""
    with open("%s/completions/%s.fish" % (ROOT, name), encoding="utf-8") as file:
        fish = dict(re.findall(r"(?m)-l ([\w-]+).* -d '(.*)'$", file.read()))
    with open("%s/completions/%s.zsh" % (ROOT, name), encoding="utf-8") as file:
        zsh = dict(re.findall(r"--(\w[\w-]*\w)=?-?\}?'?\[(.*?)\]", file.read()))
    # (in zsh one stands for --shown with and without a size)
    zsh = {option: words.replace(", or one of this size,", "") for option, words in zsh.items()}
    yield "fish and zsh show the same of the options of %s" % name, (fish != zsh or not fish) and "%s and %s" % (fish, zsh)


def fish_cases(name, words, listed, valued):
    """fish shows an option without its =, which it takes for the next word too."""
    with tempfile.TemporaryDirectory() as room:
        open(room + "/build.log", "w").close()
        path = os.path.join(ROOT, "completions/%s.fish" % name)
        known = {**os.environ, "HOME": room, "XDG_CONFIG_HOME": room + "/.config", "XDG_DATA_HOME": room + "/.data"}

        def told(line):
            done = subprocess.run(["fish", "--no-config", "-c", "source %s; complete -C '%s'" % (path, line)], cwd=room, env=known, capture_output=True, text=True)
            return sorted(it.split("\t")[0] for it in done.stdout.splitlines())

        found, wanted = told(name + " --"), sorted({it.rstrip("=") for it in listed})
        yield "fish completes %s --" % name, found != wanted and "to %s" % found
        for typed, completed in TYPED[name]:
            found, wanted = told("%s %s" % (name, typed)), completed.split()[-1].rstrip("=")
            yield "fish completes %s '%s'" % (name, typed), found != [wanted] and "to %s" % found
        if words:
            found = [*told(name + " bu"), *told("%s %s bu" % (name, words[0]))]
            yield "fish completes %s bu to nothing" % name, found and "to %s" % found
        for word in valued:
            found, wanted = told("%s %s " % (name, word)), ["build.log"] if word == "--output" else []
            yield "fish completes %s %s" % (name, word), found != wanted and "to %s" % found


def zsh_cases(name, words, listed, valued):
    """zsh is typed to: it completes nowhere else. It is asked once it waits, and is given time until it shows what is wanted. In its list
    an option stands without its = too."""
    with tempfile.TemporaryDirectory() as room:
        for folder in ("/site", "/there"):
            os.mkdir(room + folder)
        open(room + "/there/build.log", "w").close()
        shutil.copy("%s/completions/%s.zsh" % (ROOT, name), "%s/site/_%s" % (room, name))
        with Typed(room) as zsh:
            wanted = sorted({it.rstrip("=") for it in listed})
            found = zsh.shown(name + " --", wanted)
            options = sorted(set(re.findall(r"--\w[\w-]*\w", found)))
            yield "zsh completes %s --" % name, options != wanted and "to %s" % found[-800:]
            for typed, completed in TYPED[name]:
                found = zsh.shown("%s %s" % (name, typed), ["%s %s" % (name, completed)])
                yield "zsh completes %s '%s'" % (name, typed), "%s %s" % (name, completed) not in found and "to %r" % found[-200:]


class Typed:
    """A zsh in a terminal, which knows the completions in a folder `site`."""

    def __init__(self, room):
        self.terminal, inner = pty.openpty()
        fcntl.ioctl(inner, termios.TIOCSWINSZ, struct.pack("HHHH", 60, 200, 0, 0))
        known = {**os.environ, "TERM": "dumb", "HOME": room}
        begins = {"stdin": inner, "stdout": inner, "stderr": inner, "start_new_session": True}
        self.shell = subprocess.Popen(["zsh", "-f", "-i"], cwd=room + "/there", env=known, **begins)
        os.close(inner)
        self.type("unset zle_bracketed_paste; PS1='rea''dy> '; PROMPT_SP=; unsetopt prompt_sp\n")
        self.type("fpath=(%s/site $fpath); autoload -Uz compinit; compinit -u -d %s/dump; LISTMAX=1000; PS1='do''ne> '\n" % (room, room))
        self.until(["done> "])

    def __enter__(self):
        return self

    def __exit__(self, *why):
        self.shell.kill()
        self.shell.wait()
        os.close(self.terminal)

    def type(self, text):
        os.write(self.terminal, text.encode())

    def until(self, wanted):
        """What is shown until all that is wanted has been, and a little longer."""
        shown, end = "", time.monotonic() + PATIENCE
        while True:
            is_shown = all(it in shown for it in wanted)
            left = 0.3 if is_shown else end - time.monotonic()
            if left <= 0 or not select.select([self.terminal], [], [], left)[0]:
                return shown
            shown += os.read(self.terminal, 65536).decode(errors="replace")

    def shown(self, line, wanted):
        """What is shown where a line is typed, and a tab behind it."""
        self.type(line)
        before = self.until([line])
        self.type("\t")
        shown = before.rstrip("\r\n") + self.until([wanted[0][len(line) :]] if len(wanted) == 1 else wanted)
        self.type("\x15")
        self.until([])
        return shown
