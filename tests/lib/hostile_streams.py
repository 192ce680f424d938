"""What makes hostile streams: a unit again and again, in blocks."""

from lib import needs

WHOLE = 100_000_000
# the bytes of a hostile stream: programs that are not proved take long, and a tenth shows as well what grows
SIZE = WHOLE if needs.is_proved() else WHOLE // 10
BLOCK = 1 << 20


def repeated(unit, count):
    """The blocks of COUNT times UNIT."""
    each = max(1, BLOCK // len(unit))
    block = unit * each
    for _ in range(count // each):
        yield block
    yield unit * (count % each)


def stream(head, unit, tail=b""):
    def blocks():
        yield head
        yield from repeated(unit, SIZE // len(unit))
        yield tail

    return blocks


def text(data):
    return lambda: [data]


def times(unit, count):
    return lambda: repeated(unit, count)
