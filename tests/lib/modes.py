"""A program that is tried, and its modes: what each writes by rows, line by line, and around it."""

from lib.expected_pages import BLOCK_BEGIN, BLOCK_END, blocks_begun, blocks_ended, line_in_blocks
from lib.open_strings import said

ROOM = 4 * 1024  # the kilobytes of memory that a program may take
# and with a screen of 1000x100: 3,907 of cells that show, and as many of the alternate screen once it showed, and of rows that leave by a call
ROOM_SHOWN = 12 * 1024


class Program:
    """A filter of standard input: the words that it refuses, each with the line that it says then;
    its modes; its own options, where it has options; the words with which it writes fragments
    or a whole page of HTML, if it does; those by which it writes a text of its own, and reads nothing; with which
    words it is given files, each beside those by which it writes a text alone, with nothing around it; and those by
    which it follows a stream, each beside what it reads before it writes."""

    def __init__(self, name, refused, modes, options=None, fragments=(), page=None, written=(), files=(), following=()):
        self.name, self.refused, self.modes, self.options = name, refused, modes, options
        self.fragments, self.page, self.written, self.files, self.following = fragments, page, written, files, following


class Mode:
    """The words that choose it; rows of what is read and the text for it, by their names; a
    line and its text, which does not depend on what came before, or a function of its number that makes it; hostile streams,
    each with
    its text or the digest of it; and what is written before and after each text. `stays` says
    that each text is its own text; `cut` is a stream, and what is written of the bytes before
    each of its bytes, and of all of them; `waits` says that lines may be written at the end alone, and
    `late` that a write which fails may be noticed with 8 KiB held back alone, and that nothing is said of how a stream
    ends. `has_blocks` says that lines stand in blocks: a row may leave its only one away; and `room` how many kilobytes it may take."""

    def __init__(self, words, rows, line, hostile, head=b"", tail=b"", stays=False, cut=None, waits=False, late=False, has_blocks=False, room=ROOM):
        self.words, self.rows, self.line, self.hostile = words, rows, line, hostile
        self.head, self.tail, self.stays, self.cut, self.waits, self.late = head, tail, stays, cut, waits, late
        self.has_blocks, self.room = has_blocks, room

    def begun(self, text):
        """What is written by then, where the text goes on."""
        return self.head + (blocks_begun(text) if self.has_blocks else text)

    def whole(self, text):
        return self.head + (blocks_ended(text) if self.has_blocks else text) + self.tail

    def end(self):
        """What is written at the end after a line, or a part of one."""
        return (BLOCK_END if self.has_blocks else b"") + self.tail

    def numbers_lines(self):
        return callable(self.line[1])

    def times(self, count, before=0):
        """The text of the line COUNT times, after so many of them."""
        text = self.line[1] if self.numbers_lines() else lambda number: self.line[1]
        of_line = (lambda number: line_in_blocks(number, text(number))) if self.has_blocks else text
        return b"".join(map(of_line, range(before + 1, before + count + 1)))

    def said(self, program, blocks):
        """What the program says of standard input that comes in these blocks."""
        return b"" if self.late else said(program, blocks)

    def around(self, blocks):
        """All that is written where these parts of one line are the text."""
        written = False
        yield self.head
        for part in blocks:
            yield BLOCK_BEGIN if self.has_blocks and part and not written else b""
            written = written or part != b""
            yield part
        yield self.end() if written else self.tail
