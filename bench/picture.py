#!/usr/bin/env python3
"""Makes the pictures of README.md and of docs/USING.md, by ansi2svg.

Usage: bench/picture.py [--help] [--record] [--to FOLDER] [PROGRAM]

    --record    runs the tests of a small crate by cargo anew, in /tmp/wordcount, and writes bench/cargo.log, before
    --to FOLDER where they are put, if not into docs
    PROGRAM     ansi2svg, if it is not crates/ansi2svg/out/ansi2svg

bench/cargo.log is what script(1) recorded on a pseudoterminal of 80x41; the line that it wrote last is left out. What docker wrote, as it
built an image, is one of tests/screen/recordings. tests/pictures holds docs to what this makes."""

import os
import pty
import shutil
import struct
import subprocess
import sys
import termios
from fcntl import ioctl

ROOT = os.path.dirname(os.path.dirname(os.path.realpath(__file__)))
LOG = ROOT + "/bench/cargo.log"
COLUMNS, ROWS = 80, 41
CRATE = {
    "Cargo.toml": '[package]\nname = "wordcount"\nversion = "0.1.0"\nedition = "2021"\n',
    "src/lib.rs": """/// How many words a text has.
pub fn words(text: &str) -> usize {
    let length = text.len();
    text.split(' ').count()
}

#[cfg(test)]
mod tests {
    use super::words;

    #[test]
    fn two() {
        assert_eq!(words("two words"), 2);
    }

    #[test]
    fn markup() {
        assert_eq!(words("<b>one</b>"), 1);
    }

    #[test]
    fn none() {
        assert_eq!(words(""), 0, "\\"\\" has no <word>");
    }
}
""",
}

def record():
    """The tests of the crate, one of which fails, as script(1) records them on a terminal."""
    room = "/tmp/wordcount"
    os.makedirs(room + "/src")
    try:
        for name, text in CRATE.items():
            with open("%s/%s" % (room, name), "w", encoding="utf-8") as file:
                file.write(text)
        child, terminal = pty.fork()
        if not child:
            os.chdir(room)
            unwanted = ("NO_COLOR", "RUST_BACKTRACE", "CARGO_TARGET_DIR")
            known = {**{name: it for name, it in os.environ.items() if name not in unwanted}, "TERM": "xterm-256color"}
            os.execvpe("script", ["script", "-q", "-c", "cargo test --color=always", LOG], known)
        ioctl(terminal, termios.TIOCSWINSZ, struct.pack("HHHH", ROWS, COLUMNS, 0, 0))
        try:
            while os.read(terminal, 65536):
                pass
        except OSError:  # (that is how Linux says that the other end is closed)
            pass
        os.waitpid(child, 0)
    finally:
        shutil.rmtree(room)


def log():
    """The recording of cargo, without the line that script(1) wrote last."""
    with open(LOG, "rb") as file:
        return b"".join(file.readlines()[:-1])


def recording(name):
    with open("%s/tests/screen/recordings/%s" % (ROOT, name), "rb") as file:
        return file.read()


def pictures(program):
    """Each picture by its name."""
    for name, words, data in (
        ("cargo.svg", ["--window", "--title=cargo test"], log()),
        ("docker.svg", ["--shown", "--window", "--title=docker build ."], recording("docker_build")),
    ):
        yield name, subprocess.run([program, *words], input=data, stdout=subprocess.PIPE, check=True).stdout


def main(words):
    if words == ["--help"]:
        print(__doc__)
        return 0
    folder = words.pop(words.index("--to") + 1) if "--to" in words[:-1] else ROOT + "/docs"
    missing = [it for it in ("script", "cargo") * ("--record" in words) if not shutil.which(it)]
    if missing:
        print("bench/picture.py: there is no %s" % ", ".join(missing), file=sys.stderr)
        return 1
    if "--record" in words:
        record()
    program = ([it for it in words if it not in ("--record", "--to")] or [ROOT + "/crates/ansi2svg/out/ansi2svg"])[0]
    for name, data in pictures(os.path.abspath(program)):
        with open("%s/%s" % (folder, name), "wb") as file:
            file.write(data)
    return 0


if __name__ == "__main__":
    sys.exit(main(sys.argv[1:]))
