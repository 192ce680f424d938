"""Streams in eight threads at once, each by the package ansi_proved: each has its own text and HTML, and the
process takes no more memory for more calls. ANSI_LIBRARY and PYTHONPATH say where they are."""

import resource
import sys
import threading

from ansi_proved import Csi, Execute, Osc, Text, events, strip, to_html

CALLS = 2_000
PIECE = 30 << 10  # bytes: the calls have 1.4 GB of rooms
MEMORY = 128 << 10  # kilobytes

wrong = []


def convert_lines(letter):
    text = letter * 200 + b"\n"
    line = b"\x1b[1m" + text[:100] + b"\x1b]0;title\x07" + text[100:]
    page = b'<span style="font-weight:bold;">' + text + b"</span>"
    long, stripped = line * (PIECE // len(line)), text * (PIECE // len(line))
    bold, title = Csi(((1,),), "", False, "m"), Osc((b"0", b"title"), True)
    wanted = [bold, Text(100 * chr(letter[0])), title, Text(100 * chr(letter[0])), Execute(10)]
    for _ in range(CALLS):
        if strip(long) != stripped or strip(line) != text or to_html(line) != page:
            wrong.append(letter)
        if list(events(line)) != wanted:
            wrong.append(letter)


sys.setswitchinterval(1e-6)
threads = [threading.Thread(target=convert_lines, args=(bytes([letter]),)) for letter in b"abcdefgh"]
for thread in threads:
    thread.start()
for thread in threads:
    thread.join()
assert not wrong, "%d lines whose text is another" % len(wrong)
memory = resource.getrusage(resource.RUSAGE_SELF).ru_maxrss
assert memory < MEMORY, "%d kB of memory" % memory
