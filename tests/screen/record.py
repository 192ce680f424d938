#!/usr/bin/env python3
"""Records progress as programs draw it, for tests/screen_twin.

Usage: tests/screen/record.py FOLDER [NAME]..

Each program runs on a terminal of its own of 80 columns and 24 rows; what it wrote stands in
FOLDER/NAME. pip and npm download a package of this script's own, from a server of its own on this
machine that hands it out slowly, as curl does; git clones this repository; apt-get, run by root,
installs less anew; cargo builds crates of its own; docker, the client, pulls and builds an image that the
same server says to have, as an engine would. Programs that are not installed are left out, and said.
"""

import http.server
import importlib.util
import io
import json
import os
import shutil
import sys
import tarfile
import tempfile
import threading
import time
import zipfile

sys.dont_write_bytecode = True

ROOT = os.path.dirname(os.path.dirname(os.path.dirname(os.path.realpath(__file__))))
ROWS, COLUMNS = 24, 80
# The bytes of a package and of a piece of it, and the seconds between two pieces.
SIZE, PIECE, PAUSE = 3 << 20, 1 << 17, 0.1
NPM = "npm install --registry=AT --cache=INTO/cache --no-audit --no-fund --no-update-notifier slow"
PIP = "python3 -m pip --isolated --disable-pip-version-check download --no-cache-dir --index-url=AT/simple -d INTO slow"
# A workspace of crates that are built one after another; its bar comes after half a second.
CRATES = "for it in alpha beta gamma delta epsilon; do cargo new -q --vcs=none --lib $it; done"
WORKSPACE = "printf '[workspace]\\nmembers = [\"*\"]\\nexclude = [\"target\"]\\n' > Cargo.toml"
CARGO = "cd INTO && %s && %s && CARGO_TERM_PROGRESS_WHEN=always CARGO_TERM_PROGRESS_WIDTH=60 cargo build -j1" % (CRATES, WORKSPACE)
BUILD = "cd INTO && echo FROM slow > Dockerfile && DOCKER_BUILDKIT=0 DOCKER_CONFIG=INTO docker --host=tcp:AT build ."
WHEEL = "slow-1.0-py3-none-any.whl"

# What the engine says of a layer as it comes, in this order; the last two have a progress.
LAYERS = ("1f3e46996e29", "8a49fdb3b6a5", "44cf07d57ee4")
STEPS = "Pulling fs layer", "Waiting", "Downloading", "Verifying Checksum", "Download complete", "Extracting", "Pull complete"

# name: the command, in which AT is the server and INTO an empty folder, and for how many seconds it runs at most
PROGRAMS = {
    "apt": ("apt-get install --reinstall -y -o Dpkg::Progress-Fancy=1 -o Dir::Ignore-Files-Silently::=. less", 60),
    "cargo": (CARGO, 60),
    "curl": ("curl -o /dev/null AT/slow.tgz", 20),
    "curl_bar": ("curl -# -o /dev/null AT/slow.tgz", 20),
    "docker": ("DOCKER_CONFIG=INTO docker --host=tcp:AT pull slow", 30),
    "docker_build": (BUILD, 30),
    "git_clone": ("git clone --no-local --progress %s INTO/clone" % ROOT, 30),
    "npm": ("cd INTO && " + NPM, 30),
    "pip": (PIP, 30),
}


def wheel():
    """A wheel of bytes that do not compress."""
    data = io.BytesIO()
    with zipfile.ZipFile(data, "w") as file:
        file.writestr("slow/data", os.urandom(SIZE))
        file.writestr("slow-1.0.dist-info/METADATA", "Metadata-Version: 2.1\nName: slow\nVersion: 1.0\n")
        file.writestr("slow-1.0.dist-info/WHEEL", "Wheel-Version: 1.0\nRoot-Is-Purelib: true\nTag: py3-none-any\n")
        file.writestr("slow-1.0.dist-info/RECORD", "")
    return data.getvalue()


def tarball():
    """A package of npm of such bytes."""
    data = io.BytesIO()
    with tarfile.open(fileobj=data, mode="w:gz") as file:
        for name, text in (("package.json", b'{"name": "slow", "version": "1.0.0"}'), ("data", os.urandom(SIZE))):
            entry = tarfile.TarInfo("package/" + name)
            entry.size = len(text)
            file.addfile(entry, io.BytesIO(text))
    return data.getvalue()


def said_of_pull():
    """What an engine says of an image of three layers, which come side by side, a message at a time."""
    yield {"status": "Pulling from library/slow", "id": "latest"}
    for step in STEPS:
        for done in range(PIECE, SIZE + 1, 4 * PIECE) if step in ("Downloading", "Extracting") else (0,):
            for layer in LAYERS:
                progress = {"current": done, "total": SIZE} if done else {}
                yield {"status": step, "progressDetail": progress, "id": layer}
    yield {"status": "Status: Downloaded newer image for slow:latest"}


def said_of_build():
    """What an engine says of a build: the image is pulled, and a command's output has colours."""
    yield {"stream": "Step 1/2 : FROM slow\n"}
    yield from said_of_pull()
    yield {"stream": " ---> 1f3e46996e29\nStep 2/2 : RUN make\n"}
    yield {"stream": "\x1b[1mmake.c:3:\x1b[m \x1b[35mwarning:\x1b[m unused variable \x1b[1mx\x1b[m\n"}
    yield {"stream": " 50%\r100%\nSuccessfully built 1f3e46996e29\n"}


class Server(http.server.BaseHTTPRequestHandler):
    """An index of pip, a registry of npm, the package of each, and the engine of docker."""

    def log_message(self, *words):
        pass

    def do_HEAD(self):
        self.send_response(200)
        self.send_header("Api-Version", "1.41")
        self.end_headers()

    def do_POST(self):
        self.send_response(200)
        self.send_header("Content-Type", "application/json")
        self.end_headers()
        for message in said_of_build() if "/build" in self.path else said_of_pull():
            self.wfile.write(json.dumps(message).encode() + b"\r\n")
            time.sleep(PAUSE / 4)

    def do_GET(self):
        at = "http://127.0.0.1:%d" % self.server.server_port
        kind, data = "text/html", b'<a href="/%s">%s</a>' % (WHEEL.encode(), WHEEL.encode())
        if self.path in ("/" + WHEEL, "/slow.tgz"):
            kind, data = "application/octet-stream", self.server.files[self.path]
        elif self.path == "/slow":
            version = {"name": "slow", "version": "1.0.0", "dist": {"tarball": at + "/slow.tgz"}}
            found = {"name": "slow", "dist-tags": {"latest": "1.0.0"}, "versions": {"1.0.0": version}}
            kind, data = "application/json", json.dumps(found).encode()
        self.send_response(200)
        self.send_header("Content-Type", kind)
        self.send_header("Content-Length", str(len(data)))
        self.end_headers()
        for start in range(0, len(data), PIECE):
            self.wfile.write(data[start:start + PIECE])
            time.sleep(PAUSE if len(data) > PIECE else 0)


def recorder():
    """The function of bench/record.py that runs a program on a terminal."""
    spec = importlib.util.spec_from_file_location("record_programs", os.path.join(ROOT, "bench", "record.py"))
    module = importlib.util.module_from_spec(spec)
    spec.loader.exec_module(module)
    return module.recorded


def main():
    if sys.argv[1:] == ["--help"]:
        print(__doc__.strip())
        return
    if len(sys.argv) < 2 or sys.argv[1].startswith("-"):
        sys.exit(__doc__)
    folder, names = sys.argv[1], sys.argv[2:] or list(PROGRAMS)
    os.makedirs(folder, exist_ok=True)
    server = http.server.ThreadingHTTPServer(("127.0.0.1", 0), Server)
    server.files = {"/" + WHEEL: wheel(), "/slow.tgz": tarball()}
    threading.Thread(target=server.serve_forever, daemon=True).start()
    for name in names:
        command, seconds = PROGRAMS[name]
        if shutil.which(name.split("_")[0] if name != "apt" else "apt-get") is None:
            print("%s is not installed, and is left out" % name)
            continue
        place = "127.0.0.1:%d" % server.server_port
        with tempfile.TemporaryDirectory() as into:
            command = command.replace("tcp:AT", "tcp://" + place).replace("AT", "http://" + place).replace("INTO", into)
            pieces = recorder()(["sh", "-c", command], [], seconds, COLUMNS, ROWS)
        written = b"".join(piece for _, piece in pieces)
        with open(os.path.join(folder, name), "wb") as file:
            file.write(written)
        print("%-9s %7d bytes" % (name, len(written)), flush=True)
    server.shutdown()


if __name__ == "__main__":
    main()
