"""What the programs say of words that they do not take: rows for tests/lib/expected.py."""

PARSELOG_USAGE = b"usage: parselog [log|canon]"


def unknown(name, words, shown=None):
    """Words of which one is no option, the first that begins with a dash, and what is said then."""
    shown = shown or '"%s"' % next(word for word in words if word.startswith("-"))
    return words, ("%s: unknown option %s (see %s --help)" % (name, shown, name)).encode()


def refused_by(name, *more):
    """What no program with options takes: other options, also where files stand before them or behind."""
    rows = [["--Help"], ["--help="], ["--version=1"], ["-H"], ["-hh"], ["---"]]
    rows += [["a", "--no"], ["--no", "--version"], ["--no", "--", "a"], ["--helpme"], ["-O", "a"]]
    shown = [unknown(name, ["-\x1b[31m\n"], '"-\\u{1b}[31m\\n"')]
    wanting = [(words, wants(name, "--output", "the name of a file")) for words in (["--output"], ["a", "--output"])]
    return [unknown(name, words) for words in [*rows, *more]] + shown + wanting


def wants(name, option, what="a value"):
    """What is said of an option that has no value."""
    return ("%s: %s wants %s (see %s --help)" % (name, option, what, name)).encode()


def wrong_size(name):
    return b"%s: a size is COLUMNSxROWS, from 2x1 to 1000x1000 (see %s --help)" % (name, name)
