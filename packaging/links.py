#!/usr/bin/env python3
"""Lets the links of documents in a folder lead to what is in it: others become their text.

Usage: packaging/links.py FOLDER

Each file of the folder, and of those in it, whose name ends in .md is written anew. A link to a file that is there stays, as one
within the page and one to another site; of any other the text is left, and that it is of the source, or what it is called there.
"""

import os
import re
import sys

LINK = re.compile(r"\[((?:`[^`]*`|[^\[\]`])+)\]\(([^()\s]+)\)")
SITE = re.compile(r"#|[a-z]+:")


def led(text, at, folder):
    """The text of a document in a folder, with the links that lead to what is in it."""

    def link(found):
        shown, target = found.groups()
        path = target.partition("#")[0]
        there = os.path.normpath(os.path.join(os.path.dirname(at), path))
        inside = os.path.relpath(there, folder)
        if SITE.match(target) or (not inside.startswith("..") and os.path.exists(there)):
            return found[0]
        return "%s of the source" % shown if shown.strip("`") == inside else "%s (`%s` of the source)" % (shown, inside)

    return LINK.sub(link, text)


def main(words):
    if len(words) != 1 or words == ["--help"]:
        print(__doc__.strip(), file=sys.stdout if words == ["--help"] else sys.stderr)
        return 0 if words == ["--help"] else 2
    for at, _, names in os.walk(words[0]):
        for name in names:
            if name.endswith(".md"):
                path = os.path.join(at, name)
                with open(path, encoding="utf-8") as file:
                    text = file.read()
                with open(path, "w", encoding="utf-8") as file:
                    file.write(led(text, path, words[0]))
    return 0


if __name__ == "__main__":
    sys.exit(main(sys.argv[1:]))
