#!/usr/bin/env python3
"""Holds the keys of crates/terminal_keys beside xterm.

Usage: tests/screen/keys_xterm.py [--help]

A twin of specs/Legacy.antt in Python says what each key is; xterm, under Xvfb, is sent the same keys by xdotool, and a
program that runs in it writes what it reads to a file. Wants the Debian packages xterm, xvfb and xdotool; is run by hand.
"""
import argparse
import os
import subprocess
import sys
import tempfile
import time

sys.dont_write_bytecode = True

import terminals

LETTERS = "abimz"
OTHERS = {  # what xdotool calls a key: what it types, and with Shift, on the keyboard of the United States
    "1": "1!", "2": "2@", "3": "3#", "6": "6^", "7": "7&", "8": "8*", "9": "9(", "0": "0)", "minus": "-_", "equal": "=+",
    "bracketleft": "[{", "backslash": "\\|", "semicolon": ";:", "apostrophe": "'\"", "grave": "`~", "comma": ",<",
    "slash": "/?", "space": "  ",
}
NAVIGATION = {
    "Up": (1, "A"), "Down": (1, "B"), "Right": (1, "C"), "Left": (1, "D"), "End": (1, "F"), "Home": (1, "H"),
    "Insert": (2, "~"), "Delete": (3, "~"), "Prior": (5, "~"), "Next": (6, "~"),
}
PAD = {  # what it types, and its final byte for an application
    "KP_Add": "+k", "KP_Subtract": "-m", "KP_Multiply": "*j", "KP_Divide": "/o", "KP_Enter": "\rM",
}
HELD = ["", "shift", "alt", "shift+alt", "ctrl", "shift+ctrl", "alt+ctrl", "shift+alt+ctrl"]
END = b"\x1b[21~"  # F10 comes after each key
OPTIONS = [  # DECCKM, the keypad and DECBKM
    ("\x1b[?1l\x1b>\x1b[?67l", {}),
    ("\x1b[?1h\x1b=\x1b[?67h", {"cursor_keys": True, "keypad": True, "backspace": True}),
]
MODES = [("", 0), ("\x1b[>4;1m", 1), ("\x1b[>4;2m", 2)]


def number_of(held):
    return 1 + ("shift" in held) + 2 * ("alt" in held) + 4 * ("ctrl" in held)


def function(n):
    if n <= 4:
        return 1, chr(0x4F + n)
    return n + (10 if n <= 5 else 11 if n <= 10 else 12 if n <= 14 else 13 if n <= 16 else 14 if n <= 20 else 21), "~"


def with_number(number, modifiers, last):
    return f"\x1b[{number};{modifiers}{last}" if modifiers > 1 else f"\x1b[{number if number > 1 else ''}{last}"


def with_modifiers(code, modifiers, application):
    number, last = code
    return f"\x1bO{last}" if application and number == 1 and modifiers == 1 else with_number(number, modifiers, last)


def control_of(c):
    if "@" <= c <= "~":
        return chr(ord(c) % 32)
    return {" ": "\0", "2": "\0", "8": "\x7f", "?": "\x7f", "/": "\x1f"}.get(c, chr(ord(c) - 0x18) if "3" <= c <= "7" else c)


def told_or_typed(told, modifiers, c, alt):
    return f"\x1b[27;{modifiers};{ord(c)}~" if told else ("\x1b" if alt else "") + c


def legacy(key, held, level, cursor_keys=False, keypad=False, backspace=False):
    shift, alt, ctrl, m = "shift" in held, "alt" in held, "ctrl" in held, number_of(held)
    if key in LETTERS or key in OTHERS:
        c = OTHERS.get(key, key + key.upper())[shift]
        letter, has = "@" <= c <= "~", c in " /2345678"
        told = (ctrl and not letter and (alt or not has)) if level == 1 else (
            alt or ctrl or (shift and (letter or c == " "))) if level == 2 else False
        return told_or_typed(told, m, control_of(c) if ctrl and not told else c, alt)
    if key == "Return":
        if level == 1:
            return told_or_typed(shift or (ctrl and not alt), 2 if alt else m, "\r", alt)
        return told_or_typed(level == 2 and m > 1, m, "\r", alt)
    if key == "Tab":
        if shift and (level != 2 or not (alt or ctrl)):
            return "\x1b[Z"
        return told_or_typed(m > 1 if level == 2 else level == 1 and ctrl and not alt, m, "\t", alt)
    if key == "Escape":
        return told_or_typed(alt and (shift or ctrl) if level == 1 else level == 2 and m > 1, m, "\x1b", alt)
    if key == "BackSpace":
        return told_or_typed(level == 2 and (shift or alt), m, "\x7f" if backspace == ctrl else "\b", alt)
    if key in NAVIGATION:
        return with_modifiers(NAVIGATION[key], m, cursor_keys)
    if key in PAD:
        typed, last = PAD[key]
        return ("\x1bO" + (str(m) if m > 1 else "") + last) if keypad else typed
    return with_modifiers(function(int(key[1:])), m, True)


TRACKING = [0, 9, 1000, 1002, 1003]
ENCODINGS = [0, 1006, 1015]
# what is done, as xdotool has it: a button, and what it is
DONE = [("move", None), ("press", 1), ("move", 1), ("release", 1), ("move", None), ("press", 3), ("release", 3), ("turn", 4), ("turn", 5),
        ("turn", 6), ("turn", 7), ("press", 8), ("release", 8), ("press", 9), ("release", 9)]
CODES = {1: 0, 2: 1, 3: 2, 4: 64, 5: 65, 6: 66, 7: 67, 8: 128, 9: 129}


def mouse(done, button, column, row, tracking, encoding):
    told = {0: False, 9: done == "press" and button < 4, 1000: done != "move", 1002: done != "move" or button, 1003: True}[tracking]
    if not told:
        return ""
    code = (32 + CODES[button] if button else 35) if done == "move" else 3 if done == "release" and encoding != 1006 else CODES[button]
    if encoding == 1006:
        return f"\x1b[<{code};{column + 1};{row + 1}{'m' if done == 'release' else 'M'}"
    if encoding == 1015:
        return f"\x1b[{code + 32};{column + 1};{row + 1}M"
    return "\x1b[M" + "".join(chr(it) for it in (code + 32, column + 33, row + 33))


READER = r"""
import os, sys, termios, tty
tty.setraw(0)
os.write(1, sys.argv[1].encode("latin-1"))
with open(sys.argv[2], "wb", 0) as out:
    out.write(b"R")
    while True:
        out.write(os.read(0, 4096))
"""


def ask(folder, modes, keys):
    """What xterm sends for each key, after the program has asked for modes."""
    return run(folder, modes, [[word for key in keys[at:at + 50] for word in ("key", "--delay", "4", key, "key", "F10")]
                               for at in range(0, len(keys), 50)], len(keys)).split(END)[:-1]


def ask_mouse(folder, modes):
    """What it sends of what the mouse does, and where that is, from 0 on."""
    words, places, x = [], [], 140  # (the first move of all is that to 200 and 150, before)
    for done, button in DONE:
        x += 60 if done == "move" else 0
        words += (["mousemove", str(x), "150"] if done == "move" else
                  # (xterm tells releases of buttons 6 and 7, of a wheel to the left and right; a wheel that turns here has none)
                  [{"press": "mousedown", "release": "mouseup", "turn": "click" if button < 6 else "mousedown"}[done], str(button)])
        words += ["sleep", "0.1"]
        places.append(((x - 3) // 6, (150 - 3) // 13))  # borders of 3 pixels, and cells of 6 by 13
    return run(folder, modes, [words + ["key", "F10"]], 1).split(END)[0], places


def run(folder, modes, batches, count):
    """What a program reads that asked for modes, in an xterm on a server of its own, up to so many F10."""
    path = os.path.join(folder, "read")
    if os.path.exists(path):
        os.remove(path)
    server, display = terminals.xvfb(24, "-r", "-noreset")
    environment = dict(os.environ, DISPLAY=display)
    xterm = subprocess.Popen(
        ["xterm", "-xrm", "*metaSendsEscape: false", "-xrm", "*eightBitInput: false",
         "-xrm", "*omitTranslation: fullscreen,paging,scroll-lock,select,shift-fonts,popup-menu,reset",
         "-geometry", "80x24+0+0", "-e", "python3", "-c", READER, modes, path],
        env=environment, stderr=subprocess.DEVNULL)
    try:
        for _ in range(200):
            if os.path.exists(path) and os.path.getsize(path):
                break
            time.sleep(0.05)
        time.sleep(0.5)
        subprocess.run(["xdotool", "mousemove", "200", "150"], env=environment, check=True)
        for words in batches:
            subprocess.run(["xdotool", *words], env=environment, check=True)
        for _ in range(100):
            with open(path, "rb") as file:
                read = file.read()[1:]
            if read.count(END) >= count:
                break
            time.sleep(0.1)
        return read
    finally:
        for process in (xterm, server):
            process.kill()
            process.wait()


def main():
    argparse.ArgumentParser(usage=__doc__.split("Usage: ")[1].split("\n\n")[0], description=__doc__).parse_args()
    names = [*LETTERS, *OTHERS, "Return", "Tab", "Escape", "BackSpace", *NAVIGATION, *PAD,
             *("F%d" % n for n in range(1, 13) if n != 10)]
    words = [("+".join(filter(None, [held, name])), name, held) for name in names for held in HELD
             # (these are the server's own: XF86Switch_VT_1 and so on)
             if not (held == "alt+ctrl" and (name in PAD or name[0] == "F"))]
    different = rows = 0
    with tempfile.TemporaryDirectory() as folder:
        for text, options in OPTIONS:
            for asked, level in MODES:
                read = ask(folder, text + asked, [word for word, _, _ in words])
                if len(read) != len(words):
                    print(f"{len(read)} keys read, and not {len(words)}")
                for (word, name, held), got in zip(words, read):
                    wanted = legacy(name, held, level, **options).encode()
                    rows += 1
                    if got != wanted:
                        different += 1
                        print(f"{word} level {level} {sorted(options)}: xterm {got!r}, here {wanted!r}")
        print(f"{rows} keys, {different} differ")
        for tracking in TRACKING:
            for encoding in ENCODINGS:
                asked = "".join(f"\x1b[?{mode}h" for mode in (tracking, encoding) if mode)
                got, places = ask_mouse(folder, asked)
                wanted = "".join(mouse(*done, *place, tracking, encoding) for done, place in zip(DONE, places)).encode("latin-1")
                if got != wanted:
                    different += 1
                    print(f"mouse {tracking} {encoding}: xterm {got!r}, here {wanted!r}")
    print(f"{len(TRACKING) * len(ENCODINGS)} times the mouse; {different} differ")
    return different != 0


if __name__ == "__main__":
    sys.exit(main())
