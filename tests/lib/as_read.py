"""A log as a reader reads it, by the definition in crates/anstyle_parse/specs/Machine/AsRead.antt:

    as_read(data)    80..FF that belong to no character as U+FFFD, BEL that ends a string APC, PM or SOS as ESC \\, and 9C in
                     such a string or in a device control string as 9D
    as_read_whole(data)    the same of a log that is at its end: a character that is begun there is broken off
    ignored(data)    a log that is read as a terminal reads data, to which 80..9F at the ground are controls that do nothing here, 9C ends
                     strings and BEL does not, and where other such bytes and a character that is begun at the end are ignored
"""

REPLACEMENT = "\ufffd".encode()

# where a byte leads that stands in a sequence; any other keeps the place
NEXT = {
    "escape": [(b"[", "control"), (b"]", "command"), (b"P", "device entry"), (b"X^_", "ignored"),
               (bytes(range(0x20, 0x30)), "escape intermediate"), (bytes(range(0x30, 0x7F)), "ground")],
    "escape intermediate": [(bytes(range(0x30, 0x7F)), "ground")],
    "control": [(bytes(range(0x40, 0x7F)), "ground")],
    "command": [(b"\x07", "ground")],
    "ignored": [],
    "device entry": [(bytes(range(0x20, 0x30)), "device intermediate"), (bytes(range(0x30, 0x40)), "device fields"),
                     (bytes(range(0x40, 0x7F)), "device string")],
    "device fields": [(bytes(range(0x20, 0x30)), "device intermediate"), (b"<=>?", "device string"),
                      (bytes(range(0x40, 0x7F)), "device string")],
    "device intermediate": [(bytes(range(0x30, 0x7F)), "device string")],
    "device string": [],
    "ground": [],
}


def after(place, byte):
    """Where the parser stands after a byte, which is of no character."""
    if byte in b"\x18\x1a":
        return "ground"
    if byte == 0x1B:
        return "escape"
    return next((there for them, there in NEXT[place] if byte in them), place)


def begins(front):
    """Whether these bytes are the front of a character, or a whole one; and whether they are whole."""
    try:
        front.decode()
        return True, True
    except UnicodeDecodeError as error:
        return error.reason == "unexpected end of data", False


def reading(data, stray=REPLACEMENT, ends=b"\x07", text=b"\x9c", as_text=b"\x9d"):
    """What is read, and the front of a character that is begun at the end. `stray` stands for a byte that belongs to no character. A byte
    of `ends` ends a string, and of `text` is text there, for which `as_text` stands. (BEL ends no device control string.)"""
    read, place, front = bytearray(), "ground", b""
    for byte in data:
        if front:
            goes_on, whole = begins(front + bytes([byte]))
            if goes_on:
                read.append(byte)
                front = b"" if whole else front + bytes([byte])
                continue
            front = b""
        if place == "ground" and 0xC2 <= byte <= 0xF4:
            read.append(byte)
            front = bytes([byte])
        elif place == "ground" and byte >= 0x80:
            read += stray
        elif byte in ends and (place == "ignored" or (place == "device string" and byte != 0x07)):
            read += b"\x1b\\"
            place = "ground"
        elif byte in text and place in ("ignored", "device string"):
            read += as_text
        else:
            read.append(byte)
            place = after(place, byte)
    return bytes(read), front


def as_read(data):
    return reading(data)[0]


def as_read_whole(data):
    read, front = reading(data)
    return read[: len(read) - len(front)] + REPLACEMENT if front else read


def ignored(data):
    # (00 breaks a character, and ends no string: no text or HTML has it)
    read, front = reading(data, b"\0", b"\x9c", b"\x07", b"\0")
    return read[: len(read) - len(front)]
