"""What ansi_screen(3) says of the structs, beside include/ansi_screen.h: of tests/documents. A program has to be written from the page
alone, so it names each field of each struct, and each number that stands for a kind."""

import re


def declared_in(header):
    """Of each struct of a header its fields, as a declaration of its own each, and the bytes that the comment before it says."""
    found = {}
    for said, name, body in re.findall(r"/\*((?:(?!\*/).)*)\*/\ntypedef struct (\w+) \{\n(.*?)\n\} \w+;", header, re.S):
        fields = []
        for kind, names in re.findall(r"(\w+) ([^;]+);", re.sub(r"/\*.*?\*/", "", body, flags=re.S)):
            fields += ["%s %s" % (kind, it.strip()) for it in names.split(",")]
        found[name] = (re.search(r"in (\d+) bytes", said)[1], fields)
    return found


def listed_in(page):
    """The same of a manual page: the fields are the items of the list after the struct's name, but for those of lists in it."""
    found = {}
    for name, size, text in re.findall(r"(?ms)^\.Vt (\w+)\nhas, in (\d+) bytes(.*?)(?=^\.Pp|^\.Sh)", page):
        found[name] = (size, re.findall(r'(?m)^\.It Fa "(.*)"$', text))
    return found


def unsaid(page):
    """The fields of which a manual page says nothing."""
    return [name for name, text in re.findall(r'(?ms)^\.It Fa "(.*?)"\n(.*?)(?=^\.It Fa|^\.Pp|^\.Sh)', page) if not re.search(r"\w", text.replace(".El", ""))]


def cases(page, header):
    """Each case of a page of section 3 and its header: a name, and why it fails."""
    declared, listed = declared_in(header), listed_in(page)
    yield "man/ansi_screen.3 has the structs of its header", sorted(listed) != sorted(declared) and "they are %s" % sorted(listed)
    for name, wanted in declared.items():
        yield "man/ansi_screen.3 names each field of %s" % name, listed.get(name) != wanted and "it has %s, and not %s" % (listed.get(name), wanted)
    yield "and says something of each", unsaid(page) and "not of %s" % unsaid(page)
    numbers = re.findall(r"(?m)^    (ANSI_\w+) = (\d+)", header)
    told = re.findall(r"(?m)^\.It Dv (ANSI_\w+)\n\((\d+)\)", page)
    yield "man/ansi_screen.3 names each number of its header", sorted(told) != sorted(numbers) and "it has %s, and not %s" % (told, numbers)
