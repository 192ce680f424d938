#!/usr/bin/env python3
"""Stands in for the command rt where programs and libraries are to be tested before they are proved.

Usage: tests/unproved.py RT [WORD ..]    in the folder of a crate

    RT     the command rt of the kit
    run    builds the program as `rt try` does, as out/NAME, where a source is newer than what is there
    lib    builds the static library so, as out/libNAME.a
    try    tries it as rt does, with the words behind it
    ..     other words are those of rt

`rt try` makes code of a crate with no proof, with checks that stop it at an index out of range and the like. It keeps none: so it is run
in a folder that stands for the kit, whose clang keeps what it is given. A static library is to `rt try` a program that reaches what the
library exports.
"""

import os
import re
import shutil
import subprocess
import sys
import tempfile

# what the kit's clang is given for a program, with less time for it
TARGET = ["--target=x86_64-unknown-linux-gnu"]
FLAGS = ["-march=x86-64-v2", "-O1", "-fPIC", "-ffunction-sections", "-fdata-sections"]
OF_LLVM = ["-no-trap-after-noreturn", "-trap-unreachable", "-no-x86-call-frame-opt"]
EXPORT = re.compile(r'^pub extern "C" fn (\w+)\(([^)]*)\)', re.M)
# (what a call is given and gives is of no matter: it is never run)
REACHED = """
fn main() {
%s
}

fn any<T>() -> T {
    any()
}
"""


def linked(folder, at):
    """Fills a folder with links to what another has."""
    os.makedirs(at)
    for name in os.listdir(folder):
        os.symlink(os.path.join(folder, name), os.path.join(at, name))


def put(path, text, mode=0o644):
    """Writes a file in the place of a link."""
    if os.path.islink(path):
        os.remove(path)
    with open(path, "w", encoding="utf-8") as file:
        file.write(text)
    os.chmod(path, mode)


def stand_in(kit, at, kept=None):
    """Makes a folder that stands for the kit. Where it is to be kept, its clang keeps the checked program, and makes nothing of it."""
    linked(kit, at)
    for name in ("bin", "toolchain"):
        os.remove("%s/%s" % (at, name))
        linked("%s/%s" % (kit, name), "%s/%s" % (at, name))
    # (a script finds its kit by where it stands)
    for name in ("rt", "rtlib.py"):
        with open("%s/bin/%s" % (kit, name), encoding="utf-8") as file:
            put("%s/bin/%s" % (at, name), file.read(), 0o755)
    os.remove(at + "/toolchain/bin")
    linked(kit + "/toolchain/bin", at + "/toolchain/bin")
    # (beside a try rt looks for names that a check will refuse, a hint that takes a processor)
    put(at + "/bin/rattle", "#!/bin/sh\n", 0o755)
    if kept is None:
        return
    clang = 'case " $* " in *" -fsanitize=address "*) cp module.bc %s; exit 1 ;; esac\nexec %s/toolchain/bin/clang "$@"\n' % (kept, kit)
    put(at + "/toolchain/bin/clang", "#!/bin/sh\n" + clang, 0o755)


def as_program(root, name, at):
    """Makes a copy of the crates in which a static library is a program that reaches what it exports. Answers its folder, and the paths of
    what is exported."""
    shutil.copytree(root + "/crates", at + "/crates", ignore=shutil.ignore_patterns("out", "must-fail"))
    folder = "%s/crates/%s" % (at, name)
    found = {}
    for module, text in sorted(sources(folder + "/src")):
        path = "" if module == "lib" else module + "::"
        found.update({path + it: given.count(":") for it, given in EXPORT.findall(text)})
    calls = ["    let _ = %s(%s);" % (it, ", ".join(["any()"] * count)) for it, count in found.items()]
    with open(folder + "/src/lib.rt", encoding="utf-8") as file:
        put(folder + "/src/main.rt", file.read() + REACHED % "\n".join(calls))
    os.remove(folder + "/src/lib.rt")
    with open(root + "/crates.txt", encoding="utf-8") as file:
        put(at + "/crates.txt", file.read().replace("%s staticlib:" % name, "%s:" % name))
    return folder, list(found)


def sources(folder):
    """The modules of a crate, each with its text."""
    for name in os.listdir(folder):
        with open(os.path.join(folder, name), encoding="utf-8") as file:
            yield name[: -len(".rt")], file.read()


def lowered(rt, folder, room):
    """Keeps what `rt try` makes of a crate that is a program, for LLVM, and answers its path."""
    kept = room + "/module.bc"
    stand_in(kit_of(rt), room + "/kit", kept)
    streams = {"stdin": subprocess.DEVNULL, "stdout": subprocess.PIPE, "stderr": subprocess.STDOUT}
    tried = subprocess.run([room + "/kit/bin/rt", "try", "--steps", "1"], cwd=folder, **streams)
    if not os.path.exists(kept):
        sys.exit(tried.stdout.decode(errors="replace"))
    return kept


def kit_of(rt):
    return os.path.dirname(os.path.dirname(os.path.realpath(rt)))


def clang(rt, *words):
    subprocess.run([kit_of(rt) + "/toolchain/bin/clang", *TARGET, *words], check=True)


def compiled(rt, kept, made):
    """Makes an object file of what was kept."""
    clang(rt, *FLAGS, *[it for flag in OF_LLVM for it in ("-mllvm", flag)], "-c", "-x", "ir", kept, "-o", made)
    return made


def build_program(rt, name, room):
    made, kit = compiled(rt, lowered(rt, ".", room), room + "/module.o"), kit_of(rt)
    of_c = ["%s/c/%s" % (kit, it) for it in ("libos_c.a", "liblibc_c.a")]
    words = ["--target", "x86_64-unknown-linux-gnu", "--toolchain", kit + "/toolchain", "-o", "out/" + name]
    subprocess.run([kit + "/bin/rattle-link", *words, made, *of_c], check=True, stdout=subprocess.DEVNULL)


def build_library(rt, name, room):
    """Makes an archive of one object, of which others see what the library exports alone: by the names that C has for it."""
    folder, exported = as_program(os.path.dirname(os.path.dirname(os.getcwd())), name, room + "/copy")
    clang(rt, "-S", "-emit-llvm", "-x", "ir", lowered(rt, folder, room), "-o", room + "/named.ll")
    with open(room + "/named.ll", encoding="utf-8") as file:
        # (but for the program's entry)
        text = re.sub(r"(?ms)^define i32 @main\(.*?^}$", "", file.read())
    for it in exported:
        full = '@"%s::%s"(' % (name, it)
        text = re.sub("(?m)^define internal (.*%s)" % re.escape(full), r"define \1", text).replace(full, "@%s(" % it.split("::")[-1])
    with open(room + "/named.ll", "w", encoding="utf-8") as file:
        file.write(text)
    made = compiled(rt, room + "/named.ll", room + "/%s.o" % name)
    keep = ["--keep-global-symbol=" + it.split("::")[-1] for it in exported]
    subprocess.run(["objcopy", *keep, made], check=True)
    archive = "out/lib%s.a" % name
    if os.path.exists(archive):
        os.remove(archive)
    subprocess.run(["ar", "rcs", archive, made], check=True)


def is_new(root, path):
    """Whether what was built is newer than all that it may be built of."""
    if not os.path.exists(path):
        return False
    found = [root + "/crates.txt"]
    for folder, folders, names in os.walk(root + "/crates"):
        folders[:] = [it for it in folders if it not in ("out", "must-fail")]
        found += [os.path.join(folder, it) for it in names]
    return os.path.getmtime(path) >= max(map(os.path.getmtime, found))


def main(words):
    if words in (["--help"], []):
        print(__doc__.strip(), file=sys.stdout if words else sys.stderr)
        return 0 if words else 2
    rt, given = words[0], words[1:]
    if given not in (["run"], ["lib"]) and given[:1] != ["try"]:
        os.execv(rt, [rt, *given])
    with tempfile.TemporaryDirectory() as room:
        if given[:1] == ["try"]:
            stand_in(kit_of(rt), room + "/kit")
            return subprocess.run([room + "/kit/bin/rt", *given]).returncode
        name, build = os.path.basename(os.getcwd()), build_program if given == ["run"] else build_library
        if not is_new("../..", "out/" + name if given == ["run"] else "out/lib%s.a" % name):
            os.makedirs("out", exist_ok=True)
            build(rt, name, room)
    return 0


if __name__ == "__main__":
    sys.exit(main(sys.argv[1:]))
