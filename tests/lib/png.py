"""Reads a PNG of 8 bits a channel without interlacing, as rsvg-convert and Chromium write it (PNG, third edition: 5, 7, 9)."""

import struct
import zlib


def paeth(left, above, corner):
    estimate = left + above - corner
    distances = abs(estimate - left), abs(estimate - above), abs(estimate - corner)
    return (left, above, corner)[distances.index(min(distances))]


def unfiltered(kind, line, above, size):
    """A row of bytes, by that above it; what stands left of a byte is `size` before."""
    for at in range(len(line) if kind else 0):
        left, corner = (line[at - size], above[at - size]) if at >= size else (0, 0)
        line[at] = line[at] + (0, left, above[at], (left + above[at]) // 2, paeth(left, above[at], corner))[kind] & 255
    return line


def rows_of(data):
    """The rows of a picture, each a list of red, green and blue."""
    assert data[:8] == b"\x89PNG\r\n\x1a\n", "no PNG"
    packed, at = b"", 8
    while at < len(data):
        (length,) = struct.unpack_from(">I", data, at)
        kind, body = data[at + 4 : at + 8], data[at + 8 : at + 8 + length]
        if kind == b"IHDR":
            width, height, bits, color, _, _, interlaced = struct.unpack(">IIBBBBB", body)
        packed += body if kind == b"IDAT" else b""
        at += length + 12
    assert (bits, interlaced) == (8, 0) and color in (2, 6), "another form of PNG"
    size = {2: 3, 6: 4}[color]
    plain, above, rows = zlib.decompress(packed), bytearray(width * size), []
    for row in range(height):
        start = row * (width * size + 1)
        above = unfiltered(plain[start], bytearray(plain[start + 1 : start + 1 + width * size]), above, size)
        rows.append(list(zip(above[0::size], above[1::size], above[2::size])))
    return rows


def of_window(dump):
    """The rows of a picture that xwd wrote of a window of 24 bits, likewise."""
    fields = struct.unpack(">25I", dump[:100])
    width, height, bits, per_line, colours = (fields[at] for at in (4, 5, 11, 12, 19))
    assert bits == 32, "a window of %d bits" % bits
    data, rows = dump[fields[0] + 12 * colours :], []
    for row in range(height):
        line = data[row * per_line :][: 4 * width]
        rows.append(list(zip(line[2::4], line[1::4], line[0::4])))
    return rows


def chunk(kind, data):
    return struct.pack(">I", len(data)) + kind + data + struct.pack(">I", zlib.crc32(kind + data))


def data_of(rows):
    """Rows of red, green and blue as a PNG."""
    lines = b"".join(b"\0" + bytes(value for pixel in row for value in pixel) for row in rows)
    head = struct.pack(">IIBBBBB", len(rows[0]), len(rows), 8, 2, 0, 0, 0)
    return b"\x89PNG\r\n\x1a\n" + chunk(b"IHDR", head) + chunk(b"IDAT", zlib.compress(lines, 9)) + chunk(b"IEND", b"")
