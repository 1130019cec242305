"""Pictures of pages for the documents, made small: a PNG of a browser, written again with a palette."""

import collections
import struct
import zlib

SIGNATURE = b"\x89PNG\r\n\x1a\n"
COLOURS = 256


def chunks_of(png):
    place = len(SIGNATURE)
    while place < len(png):
        (size,) = struct.unpack(">I", png[place : place + 4])
        yield png[place + 4 : place + 8], png[place + 8 : place + 8 + size]
        place += size + 12


def chunk(name, content):
    return struct.pack(">I", len(content)) + name + content + struct.pack(">I", zlib.crc32(name + content))


def nearer(left, above, corner):
    """Which of the three the picture's filter foretells a byte from."""
    guess = left + above - corner
    return min((left, above, corner), key=lambda byte: abs(guess - byte))


def unfiltered(kind, line, above, step):
    """A line's bytes, of which those beside and above were taken off."""
    line = bytearray(line)
    for place in range(len(line)) if kind else ():
        left = line[place - step] if place >= step else 0
        corner = above[place - step] if place >= step else 0
        foretold = (0, left, above[place], (left + above[place]) // 2, nearer(left, above[place], corner))[kind]
        line[place] = (line[place] + foretold) & 255
    return bytes(line)


def rows_of(png):
    """The width of a picture, and the colours of its rows."""
    found = collections.defaultdict(bytes)
    for name, content in chunks_of(png):
        found[name] += content
    width, height, depth, kind = struct.unpack(">IIBB", found[b"IHDR"][:10])
    if depth != 8 or kind not in (2, 6):
        raise ValueError("the picture isn't one of three or four bytes for each of its points")
    step = 3 if kind == 2 else 4
    packed, size = zlib.decompress(found[b"IDAT"]), width * step + 1
    rows, above = [], bytes(width * step)
    for place in range(0, height * size, size):
        above = unfiltered(packed[place], packed[place + 1 : place + size], above, step)
        rows.append([above[at : at + 3] for at in range(0, len(above), step)])
    return width, rows


def palette_of(rows):
    """The most frequent colours, and which of them stands for each colour."""
    counts = collections.Counter(colour for row in rows for colour in row)
    kept = [colour for colour, _ in counts.most_common(COLOURS)]
    numbers = {colour: number for number, colour in enumerate(kept)}
    for colour in counts:
        if colour not in numbers:
            numbers[colour] = min(range(len(kept)), key=lambda number: distance(kept[number], colour))
    return kept, numbers


def distance(one, other):
    return sum((a - b) ** 2 for a, b in zip(one, other))


def small(png):
    """The same picture, in at most 256 colours."""
    width, rows = rows_of(png)
    kept, numbers = palette_of(rows)
    head = struct.pack(">IIBBBBB", width, len(rows), 8, 3, 0, 0, 0)
    content = b"".join(b"\0" + bytes(numbers[colour] for colour in row) for row in rows)
    parts = (b"IHDR", head), (b"PLTE", b"".join(kept)), (b"IDAT", zlib.compress(content, 9)), (b"IEND", b"")
    return SIGNATURE + b"".join(chunk(*part) for part in parts)
