"""What is tried of the packages: by tests/library_python where that of Python looks for the library, and what documents show of
it; by tests/library all that Cargo's hands on."""

import ast
import inspect
import io
import os
import random
import re
import shutil
import sys
import tempfile
import textwrap
import time

from lib.library_lines import lines_text
from lib.library_shared import *
from lib.log_rows import RETURN_ROWS
from lib.safe_rows import HIDDEN_ROWS, SAFE_ROWS
from lib.stand_ins import put_command

# Says which names of the package `import *` lacks.
LACKING = """
import ansi_proved, types
from ansi_proved import *
public = {name for name, it in vars(ansi_proved).items() if name[0] != "_" and not isinstance(it, types.ModuleType)}
print(*sorted(public - set(globals())))
"""


def unsaid(done, words):
    """Says how a command did not fail with these words, or answers None."""
    is_said = done.returncode != 0 and words in done.stderr
    return None if is_said else "status %d, it says %r" % (done.returncode, done.stderr[-300:])


def cargo_cases(room):
    """bindings/rust, built and used by another package, which names all that it hands on."""
    if not shutil.which("cargo"):
        yield left_out("cargo")
        return
    copy_unbuilt(RUST, room + "/bindings/rust")
    os.makedirs(room + "/user/src/bin")
    os.mkdir(room + "/archive")
    shutil.copy(ARCHIVE, room + "/archive")
    with open(room + "/user/Cargo.toml", "w") as file:
        file.write('[package]\nname = "user"\nversion = "0.0.0"\nedition = "2021"\n')
        file.write('[dependencies]\nansi-proved = { path = "../bindings/rust" }\n')
    shutil.copy(RUST + "/examples/filter.rs", room + "/user/src/main.rs")
    shutil.copytree(RUST + "/examples/common", room + "/user/src/common")
    shutil.copy("%s/tests/callers/whole.rs" % ROOT, room + "/user/src/bin")
    known = dict(os.environ, ANSI_LIB=room + "/archive", CARGO_TARGET_DIR=room + "/target")
    command, options = ["cargo", "build", "--offline", "--verbose"], {"cwd": room + "/user", "env": known}
    done = run(command, patience=10 * PATIENCE, **options)
    yield "cargo: a package that depends on bindings/rust is built", failure(done)
    if done.returncode == 0:
        yield from built_cases(room + "/target/debug/")
        newer = time.time() + 10
        os.utime(room + "/archive/libansi.a", (newer, newer))
        done = run(command, patience=10 * PATIENCE, **options)
        is_new = b"Fresh ansi-proved" not in done.stderr
        yield "cargo: it is built again over a new archive", failure(done) or (None if is_new else "it is not")
        # (where no variable says so, it is where `rt lib` leaves it)
        os.makedirs(room + "/crates/ansi/out")
        os.rename(room + "/archive/libansi.a", room + "/crates/ansi/out/libansi.a")
        known.pop("ANSI_LIB")
        done = run(["cargo", "build", "--offline"], patience=10 * PATIENCE, cwd=room + "/user", env=known)
        yield "cargo: without ANSI_LIB it takes the archive of the repository", failure(done)


def built_cases(folder):
    """The programs of the other package beside ours."""
    stream = dict(streams())["sequences of every kind"]
    done = run([folder + "user"], stream)
    yield "cargo: it strips", failure(done) or first_difference(done.stdout, text_of(stream))
    for word, wanted in [("strip", text_of(stream)), ("events", printed_of(stream)), ("cloned", text_of(stream))]:
        done = run([folder + "whole", word], stream)
        yield "cargo: %s of a whole" % word, failure(done) or first_difference(done.stdout, wanted)
    returns = b"".join(given for _, given, _ in RETURN_ROWS)
    for kind, given in [("sequences", stream), ("carriage returns", returns), ("one that comes last", b"a\r")]:
        done = run([folder + "whole", "lf"], given)
        yield "cargo: lines of %s" % kind, failure(done) or first_difference(done.stdout, lines_text(given))
    generated = b"".join(given for _, given, _ in SAFE_ROWS + HIDDEN_ROWS)
    for word in ("safe", "safe in pieces"):
        for kind, given in [("sequences", stream), ("rows of safe text", generated), ("what waits", b"a<U"), ("hidden text", b"a\x1b[8mb")]:
            done = run([folder + "whole", word], given)
            yield "cargo: %s of %s" % (word, kind), failure(done) or first_difference(done.stdout, safe_of(given))
    done = run([folder + "whole", "asked"], b"\x1b[1mABCD")
    yield "cargo: the first event comes before more pieces are asked for", failure(done) or first_difference(done.stdout, b"4")
    for styling in ("both", "light", "dark", "classes"):
        for kind, given in [("short", b"\x1b[31m<"), ("long", stream)]:
            done = run([folder + "whole", styling], given)
            why = failure(done) or first_difference(done.stdout, html_of(given, styling))
            yield "cargo: HTML of a %s whole, %s" % (kind, styling), why


LOG = b"\x1b]0;one;two\x07\x1b[1;31mred\n"  # has each event that the documents tell apart
TOLD = "print(repr([type(it).__name__ for it in took]), repr([*map(tuple, took)]), b';'.join(title).decode(), sep='\\n')"


def shown_python():
    """The lines of Python that docs/USING.md, the package's README and what it says of its calls show."""
    yield "README", re.search(r"(?m)^    import ansi_proved\n(?:    .*\n|\n)+", read("bindings/python/README.md"))[0]
    yield "docs/USING.md", re.search(r"(?m)^    import ansi_proved\n(?:    .*\n)+", read("docs/USING.md"))[0]
    for name in ("text", "event", "log"):
        told = ast.parse(read("bindings/python/src/ansi_proved/%s.py" % name)).body
        for it in told:
            if isinstance(it, ast.FunctionDef) and not it.name.startswith("_"):
                shown = "".join(re.findall(r"(?m)^    .*\n", ast.get_docstring(it) or ""))
                if shown:
                    yield it.name, shown
    yield from said_of_the_package()


def said_of_the_package():
    """What the first page of help says that calls give, as lines with comments."""
    package = ast.get_docstring(ast.parse(read("bindings/python/src/ansi_proved/__init__.py")))
    found = re.findall(r"""(?m) (\w+\("[^"]*"(?:, lf=True)?\)) is ("[^"]*"|'[^']*')$""", package)
    yield "the package", "".join("    ansi_proved.%s  # %r\n" % (code, ast.literal_eval(value)) for code, value in found)
    assert len(found) == 5, "the package shows what %d calls give" % len(found)


def shown_cases():
    """What they show, run over a log: what comments say of a line or a case is so, and each case is met."""
    known = dict(os.environ, PYTHONPATH=PYTHON, PYTHONDONTWRITEBYTECODE="1")
    for place, lines in shown_python():
        said = re.findall(r"(?m)^    (ansi_proved\..*?)  +# (.*)$", lines)
        for code, value in said:
            done = run([sys.executable, "-c", "import ansi_proved; print(repr(%s))" % code], env=known)
            is_so = re.fullmatch(re.escape(value).replace(r"\.\.", ".*") + "\n", done.stdout.decode())
            yield "Python, %s: %s" % (place, code), failure(done) or (None if is_so else "it is %r" % done.stdout)
        if "case " not in lines:
            continue
        if sys.version_info < (3, 10):
            yield "Python, %s: left out, it wants Python 3.10" % place, None
            continue
        cases = re.findall(r"(?m)^ +case ansi_proved\.(\w+)\(.*?\):(?:  # (\(.*\)))?", lines)
        text = re.sub(r"ansi_proved\.events\(.*?\):", "ansi_proved.events(stream):", "import ansi_proved\n" + textwrap.dedent(lines))
        text = re.sub(r"(?m)^    \.\.$", "    pass", text)
        text = re.sub(r"(?m)^ +\.\.$", lambda it: it[0].replace("..", "took.append(event)"), text)
        script = "import sys\ntook, log, stream = [], [], [%r]\n%s\n%s" % (LOG, text, TOLD)
        with tempfile.TemporaryDirectory() as room:
            with open(room + "/log", "wb") as log:
                log.write(LOG)
            done = run([sys.executable, "-c", script], cwd=room, env=known)
        names, events, title = (done.stdout.decode().splitlines() or [""])[-3:] if done.returncode == 0 else ("[]", "[]", "")
        met = sorted(ast.literal_eval(names)) == sorted(name for name, _ in cases)
        yield "Python, %s: each case is met once" % place, failure(done) or (None if met and cases else "it meets %s" % names)
        fields = [field for event in ast.literal_eval(events) for field in event]
        wrong = [value for _, value in cases if value and ast.literal_eval(value) not in fields]
        yield "Python, %s: with what its comments say" % place, "there is no %s" % wrong if wrong else None
        yield "Python, %s: the title is whole" % place, None if title == "one;two" else "it is %r" % title


FIELDS = {
    **{"Text": "text", "Execute": "byte", "Put": "byte", "Unhook": "", "Osc": "parts bell"},
    **{"Hook": "parameters intermediates ignored final", "Csi": "parameters intermediates ignored final"},
    "Esc": "intermediates ignored final",
}


WHOLES = [b"\x1b[1mA<", bytearray(b"A"), memoryview(b"A"), 2000 * b"\x1b[1mA"]
STRS = ["A", "\x1b[1mA", 2000 * "\x1b[1mA"]
OF_BYTES, OF_STR = [WHOLES, iter(WHOLES), [], io.BytesIO(b"\x1b[1mA")], [STRS, iter(STRS), io.StringIO("\x1b[1mA")]
MANY_STR, MANY_BYTES = "Union[Iterable[str], _File[str]]", "Union[Iterable[_Bytes], _File[bytes]]"
TYPES = {  # what type checkers are told that each function takes and gives, with what it is then given
    ("strip", "str", *3 * ["bool"], "str"): STRS,
    ("strip", "_Bytes", *3 * ["bool"], "bytes"): WHOLES,
    ("safe", "str", "str"): STRS,
    ("safe", "_Bytes", "bytes"): WHOLES,
    ("shown", "str", "Optional[int]", "Optional[int]", "bool", "bool", "str"): STRS,
    ("shown", "_Bytes", "Optional[int]", "Optional[int]", "bool", "bool", "bytes"): WHOLES,
    ("shown_of", MANY_STR, "Optional[int]", "Optional[int]", "bool", "bool", "str"): [STRS, iter(STRS), io.StringIO("\x1b[1mA")],
    ("shown_of", MANY_BYTES, "Optional[int]", "Optional[int]", "bool", "bool", "bytes"): [WHOLES, iter(WHOLES), io.BytesIO(b"\x1b[1mA")],
    ("text_of", MANY_STR, *3 * ["bool"], "Iterator[str]"): OF_STR,
    ("text_of", MANY_BYTES, *3 * ["bool"], "Iterator[bytes]"): OF_BYTES,
    ("to_html", "str", "_Styling", "_Shown", *3 * ["bool"], "str"): STRS,
    ("to_html", "_Bytes", "_Styling", "_Shown", *3 * ["bool"], "bytes"): WHOLES,
    ("html_of", MANY_STR, "_Styling", "_Shown", *3 * ["bool"], "Iterator[str]"): [STRS, iter(STRS), io.StringIO("\x1b[1mA")],
    ("html_of", MANY_BYTES, "_Styling", "_Shown", *3 * ["bool"], "Iterator[bytes]"): [WHOLES, iter(WHOLES), [], io.BytesIO(b"\x1b[1mA")],
    ("page", "str", "_Styling", "str", "str", "Optional[str]", "bool", "_Shown", *3 * ["bool"], "str"): STRS,
    ("page", "_Bytes", "_Styling", "str", "str", "Optional[str]", "bool", "_Shown", *3 * ["bool"], "bytes"): WHOLES,
    ("stylesheet", "Literal['both', 'light', 'dark']", "str"): ["both", "light", "dark"],
    ("events", "Union[str, _Bytes, Iterable[Union[str, _Bytes]], _File[str], _File[bytes]]", "Iterator[Event]"): [
        *["A\n", *WHOLES, WHOLES, ["A", b"B"], io.BytesIO(b"A"), io.StringIO("A\n")]
    ],
}


def stub_cases():
    """The types that the package is told to have, beside what it has."""
    import ansi_proved as ansi

    told = ast.parse(read("bindings/python/src/ansi_proved/__init__.pyi")).body
    functions = [it for it in told if isinstance(it, ast.FunctionDef)]
    events = {name.asname for it in told if isinstance(it, ast.ImportFrom) and it.module == "event" for name in it.names} - {"Event"}
    names = {it.name for it in told if isinstance(it, (ast.FunctionDef, ast.ClassDef)) and it.name[0] != "_"} | {"Event"} | {it.target.id for it in told if isinstance(it, ast.AnnAssign)} | events
    names |= {name.asname for it in told if isinstance(it, ast.ImportFrom) and it.module == "screen" for name in it.names}
    wrong = names ^ {*ansi.__all__, "__version__"}
    yield "Python: types are told of each public name", "not so of %s" % sorted(wrong) if wrong else None
    for it in functions:
        given = [*it.args.args, *it.args.kwonlyargs]
        defaults = [default.value for default in [*it.args.defaults, *it.args.kw_defaults]]
        defaults = [None] * (len(given) - len(defaults)) + defaults
        found = inspect.signature(getattr(ansi, it.name)).parameters.values()
        found = [(of.name, None if of.default is of.empty else of.default) for of in found]
        is_so = found == list(zip((arg.arg for arg in given), defaults))
        yield "Python: what is told to be given to %s" % it.name, None if is_so else "it takes %s" % found
    unions = {it.targets[0].id: ast.unparse(it.value) for it in told if isinstance(it, ast.Assign)}
    found = re.fullmatch(r"Union\[(.*)\]", unions.get("_Bytes", ""))
    is_so = found and set(found[1].split(", ")) == {"bytes", "bytearray", "memoryview"}
    yield "Python: what _Bytes is", None if is_so else "it is %s" % unions.get("_Bytes")
    found = {it.__name__ for it in ansi.Event.__args__}
    yield "Python: what Event is", None if found == set(FIELDS) else "it is %s" % found
    found = [tuple(ast.unparse(it) for it in (*(arg.annotation for arg in [*of.args.args, *of.args.kwonlyargs]), of.returns)) for of in functions]
    found = [(of.name, *types) for of, types in zip(functions, found)]
    yield "Python: what is told to come of what", None if found == list(TYPES) else "it is %s" % found
    for (name, kind, *_, answer), given in TYPES.items():
        answers = [getattr(ansi, name)(it) for it in given]
        if answer.startswith("Iterator"):
            is_so = all(iter(it) is it for it in answers)
            types = {type(it).__name__ for parts in answers for it in parts}
            wanted = {"Iterator[bytes]": {"bytes"}, "Iterator[str]": {"str"}}.get(answer, set(FIELDS))
            is_so = is_so and set() != types <= wanted
        else:
            is_so = {type(it).__name__ for it in answers} == {answer}
        yield "Python: %s of %s is %s" % (name, kind, answer), None if is_so else "it is %r" % answers
    wrong = events ^ set(FIELDS)
    yield "Python: events are told by their own classes", "not so of %s" % sorted(wrong) if wrong else None
    for name, fields in FIELDS.items():
        found = getattr(ansi, name)._fields
        yield "Python: the fields of %s" % name, None if tuple(fields.split()) == found else "they are %s" % (found,)


def further_page_cases(ansi, ansi2html, stream):
    """Pages with each option of ansi2html, beside what that writes: its text without the elements of blocks."""
    stream += b"\nhttp://a.b\x1b[8mha\x1b[m\r1%\r2%\n"
    options = [({name: True}, ["--" + name.replace("_", "-")]) for name in ("scroll", "lines", "urls", "no_hidden", "shown")]
    options += [({"shown": (20, 6)}, ["--shown=20x6"]), ({"css": "a&b'.css"}, ["--css=a&b'.css"])]
    of_text = ("--lines", "--urls", "--no-hidden", "--shown", "--shown=20x6")
    pick = random.Random(91)
    for _ in range(60):
        chosen = pick.sample(options, pick.randrange(5))
        styling, asked = pick.choice(list(ansi.STYLINGS)), [word for _, words in chosen for word in words]
        asked += [] if styling == "both" else ["--" + styling]
        named = {name: value for words, _ in chosen for name, value in words.items()}
        if "--shown" in asked and "--shown=20x6" in asked:
            continue
        around = run([ansi2html, "--title=t", *(it for it in asked if it not in of_text or it == "--lines")], b"")
        head, tail = around.stdout.split(b"</pre>")
        done = run([ansi2html, "--fragment", *(it for it in asked if it in (*of_text, "--light", "--dark", "--classes"))], stream)
        found = ansi.page(stream, styling, title="t", **named)
        why = failure(around) or failure(done) or first_difference(found, head + done.stdout + b"</pre>" + tail)
        yield "Python: a page by %s" % " ".join(asked), why


def page_cases(ansi):
    """Pages and stylesheets, beside what ansi2html writes, and the text that a terminal shows beside ansi2text."""
    ansi2html, ansi2text = ("%s/crates/%s/out/%s" % (ROOT, it, it) for it in ("ansi2html", "ansi2text"))
    stream = dict(streams())["sequences of every kind"]
    for styling in ansi.STYLINGS:
        words = ["--page"] if styling == "both" else ["--page", "--" + styling]
        for name, title, lang in (("", None, None), (", with a title and a language", "<a> & \"b\" 'c'\r\u20ac", "de-AT")):
            named, asked = ({}, words) if title is None else ({"title": title, "lang": lang}, [*words, "--title=" + title, "--lang=" + lang])
            around = run([ansi2html, *asked], b"")
            head, tail = around.stdout.split(b"</pre>")
            for kind, text in (("a page", stream), ("a page of a str", stream.decode(errors="replace"))):
                data = text if isinstance(text, bytes) else text.encode()
                done = run([ansi2html, "--fragment", *words[1:]], data)
                found = ansi.page(text, styling, **named)
                found = found if isinstance(text, bytes) else found.encode()
                why = failure(around) or failure(done) or first_difference(found, head + done.stdout + b"</pre>" + tail)
                yield "Python: %s, %s%s" % (kind, styling, name), why
    yield from further_page_cases(ansi, ansi2html, stream)
    for scheme in ("both", "light", "dark"):
        done = run([ansi2html, "--stylesheet", *([] if scheme == "both" else ["--" + scheme])])
        yield "Python: the stylesheet, %s" % scheme, failure(done) or first_difference(ansi.stylesheet(scheme).encode(), done.stdout)
    pick, kinds = random.Random(3), [b"text ", b"\n", b"\r\n", b"x" * 30, b"\x1b[31m", "\u4e2d".encode(), b"\t", b"\r", b"\x1b[2J", b"\x1bc", b"\x1b[5S"]
    kinds += [b"\x1b[H", b"\x1b[K", b"\x1b[3A", b"e\xcc\x81", b"\x1b[9b", b"\x1b[2;4r", b"\x1b[?1049h", b"\x1b[?1049l", b"\x1b]0;t\x07", b" "]
    wrong = []
    for at in range(200):
        given = b"".join(pick.choice(kinds) for _ in range(pick.randrange(300)))
        columns, rows = pick.choice([(80, 24), (20, 6), (2, 1), (7, 3), (1000, 2), (5, 1000)])
        done = run([ansi2text, "--shown=%dx%d" % (columns, rows)], given)
        if ansi.shown(given, columns, rows) != done.stdout or ansi.shown(given.decode(), columns, rows) != done.stdout.decode():
            wrong.append((columns, rows, given))
    yield "Python: what a terminal shows of 200 streams is what ansi2text --shown writes", "not of %r" % (wrong[0],) if wrong else None


def typed_cases():
    """What a type checker says of tests/callers/typed.py: each line that says so is refused, and no other one."""
    if not shutil.which("mypy"):
        yield needs.left_out("Python: mypy")
        return
    path = "%s/tests/callers/typed.py" % ROOT
    words = ["mypy", "--strict", "--follow-imports=silent", "--no-error-summary", "--cache-dir=" + os.devnull, path]
    done = run(words, patience=10 * PATIENCE, env=dict(os.environ, MYPYPATH=PYTHON))
    lines = read(path).split("\n")
    wanted = {at for at, line in enumerate(lines, 1) if line.endswith("# wrong")}
    found = set(map(int, re.findall(r"(?m)^.*/typed\.py:(\d+): error: ", done.stdout.decode())))
    for name, which in ("the %d calls that are right are taken" % len(lines), found - wanted), ("those that are wrong are not", wanted - found):
        yield "Python, by mypy: %s" % name, ", ".join("%d: %s" % (it, lines[it - 1]) for it in sorted(which)) or None
    yield "Python, by mypy: there are wrong ones", None if wanted else done.stderr.decode()


def place_cases(room, library):
    """Which program `python -m ansi_proved` runs: each place here goes before those above it, and the path, where another may be of the
    same name, comes last."""
    modules = room + "/own/lib/python3/site-packages"
    copy_unbuilt("%s/ansi_proved" % PYTHON, modules + "/ansi_proved")
    yield "Python: an environment", failure(run([sys.executable, "-m", "venv", "--without-pip", room + "/env"]))
    known = dict(os.environ, PYTHONPATH=modules, ANSI_LIBRARY=library, PYTHONDONTWRITEBYTECODE="1")
    known.update(PATH=room + "/path", PYTHONUSERBASE=room + "/user")
    command = [room + "/env/bin/python", "-m", "ansi_proved", "ansi2text", "a b"]
    done = run(command, env=known)
    is_so = done.returncode == 1 and done.stderr.startswith(b"there is no ansi2text here: ")
    yield "Python: where no program is there, that is said", None if is_so else "status %d, %r" % (done.returncode, done.stderr)
    places = {"the path": "path", "make install": "own/bin", "pip install --target": "own/lib/python3/site-packages/bin"}
    for name, folder in {**places, "pip install --user": "user/bin", "pip install": "env/bin"}.items():
        os.makedirs("%s/%s" % (room, folder), exist_ok=True)
        put_command("%s/%s/ansi2text" % (room, folder), 'echo "$#: $1, %s"' % name)
        done = run(command, env=known)
        yield "Python: it runs the program of %s" % name, failure(done) or first_difference(done.stdout, b"1: a b, %s\n" % name.encode())


def lookup_cases():
    """Where the package finds the library: beside itself, or where the variable says, and nowhere else."""
    library = os.environ["ANSI_LIBRARY"]
    script = "import ansi_proved; assert ansi_proved.strip(b'\\x1b[1mA') == b'A'"
    with tempfile.TemporaryDirectory() as room:
        for name in ("beside", "alone"):
            copy_unbuilt("%s/ansi_proved" % PYTHON, "%s/%s/ansi_proved" % (room, name))
        for name in ("beside/ansi_proved", "library"):
            os.makedirs("%s/%s" % (room, name), exist_ok=True)
            shutil.copy(library, "%s/%s/libansi.so" % (room, name))
        os.mkdir(room + "/elsewhere")
        with open(room + "/elsewhere/libansi.so", "w") as wrong:
            wrong.write("no library")
        yield from place_cases(room, library)
        found = {name: value for name, value in os.environ.items() if name != "ANSI_LIBRARY"}
        found.update(PYTHONDONTWRITEBYTECODE="1")
        command = [sys.executable, "-c", script]
        beside = dict(found, PYTHONPATH=room + "/beside")
        for name, variables in [("", {}), (", where the variable is empty", {"ANSI_LIBRARY": ""})]:
            done = run(command, cwd=room + "/elsewhere", env=dict(beside, **variables))
            yield "Python: the library is found beside the package" + name, failure(done)
        alone = dict(found, PYTHONPATH=room + "/alone")
        done = run(command, cwd=room + "/elsewhere", env=dict(alone, ANSI_LIBRARY=library))
        yield "Python: the library is found where the variable says", failure(done)
        done = run(command, cwd=room + "/library", env=dict(alone, LD_LIBRARY_PATH=room + "/library"))
        words = b"ImportError: libansi.so is not at %s/alone/ansi_proved/libansi.so: " % room.encode()
        yield "Python: it is not looked for elsewhere, and that is said", unsaid(done, words)
        for place in ("/nowhere/libansi.so", room + "/elsewhere/libansi.so"):
            done = run(command, env=dict(beside, ANSI_LIBRARY=place))
            words = b"ImportError: the library that ANSI_LIBRARY names cannot be loaded: %s: " % place.encode()
            name = os.path.basename(os.path.dirname(place))
            yield "Python: where %s is no library, that is said" % name, unsaid(done, words)
        shutil.copy(room + "/elsewhere/libansi.so", room + "/beside/ansi_proved/libansi.so")
        done = run(command, cwd=room, env=beside)
        words = b"ImportError: the library cannot be loaded: %s/beside/ansi_proved/libansi.so: " % room.encode()
        yield "Python: where what stands beside it is no library, that is said", unsaid(done, words)
        run([compiler("cc", "gcc", "clang"), "-shared", "-x", "c", "/dev/null", "-o", room + "/older.so"])
        done = run(command, env=dict(alone, ANSI_LIBRARY=room + "/older.so"))
        words = b"ImportError: the library %s/older.so has no " % room.encode()
        yield "Python: where it lacks a function, it is said to be an older one", unsaid(done, words)
        found.update(PYTHONPATH=PYTHON, ANSI_LIBRARY=library)
        done = run([sys.executable, "-c", LACKING], env=found)
        yield "Python: all its names are public", failure(done) or done.stdout.decode().strip() or None
        done = run([sys.executable, "%s/tests/callers/threads.py" % ROOT], env=found)
        yield "Python: eight threads have each their own text, in little memory", failure(done)
