#!/usr/bin/env python3
"""Writes a screenshot of drive.mjs again with at most 256 colours, which takes a third of the bytes.

    shrink.py FROM.png TO.png"""
import collections
import struct
import sys
import zlib

COLOURS = 256


def pixels(data):
    """The width of a picture of 8 bits a channel, and its rows of bytes, three for each pixel."""
    at, packed, head = 8, b'', None
    while at < len(data):
        size, kind = struct.unpack_from('>I4s', data, at)
        body = data[at + 8:at + 8 + size]
        head = struct.unpack('>IIBBBBB', body) if kind == b'IHDR' else head
        packed += body if kind == b'IDAT' else b''
        at += 12 + size
    width, _, depth, kind, *_, interlaced = head
    if depth != 8 or kind not in (2, 6) or interlaced:
        raise SystemExit('a picture of another kind')
    step, raw, before, rows = 3 if kind == 2 else 4, zlib.decompress(packed), bytes(4 * width), []
    for start in range(0, len(raw), width * step + 1):
        row = bytearray(raw[start + 1:start + 1 + width * step])
        unfilter(raw[start], row, before, step)
        before = row
        rows.append(bytes(row) if step == 3 else bytes(it for i, it in enumerate(row) if i % 4 != 3))
    return width, rows


def unfilter(kind, row, before, step):
    if kind == 0:
        return
    for i, it in enumerate(row):
        left, up, corner = row[i - step] if i >= step else 0, before[i], before[i - step] if i >= step else 0
        if kind == 4:
            guess = left + up - corner
            near = min((abs(guess - left), 0, left), (abs(guess - up), 1, up), (abs(guess - corner), 2, corner))[2]
        else:
            near = {1: left, 2: up, 3: (left + up) // 2}[kind]
        row[i] = (it + near) & 255


def palette(counts):
    """Boxes of similar colours, split at the middle of their longest side, and the mean colour of each."""
    boxes = [list(counts)]
    while len(boxes) < COLOURS:
        spread, axis, box = max(((max(c[a] for c in box) - min(c[a] for c in box)) * sum(counts[c] for c in box) ** 0.1, a, n) for n, box in enumerate(boxes) for a in range(3))
        if spread == 0:
            break
        colours = sorted(boxes.pop(box), key=lambda c: c[axis])
        half = (colours[0][axis] + colours[-1][axis]) / 2
        boxes += [[c for c in colours if c[axis] <= half], [c for c in colours if c[axis] > half]]
    found = {}
    for number, box in enumerate(boxes):
        found.update((colour, number) for colour in box)
    # the colour that is used most, so that grounds stay exact
    return found, [max(box, key=counts.get) for box in boxes]


def main():
    source, target = sys.argv[1:]
    with open(source, 'rb') as file:
        width, rows = pixels(file.read())
    counts = collections.Counter(row[i:i + 3] for row in rows for i in range(0, len(row), 3))
    number, colours = palette(counts)
    raw = b''.join(b'\0' + bytes(number[row[i:i + 3]] for i in range(0, len(row), 3)) for row in rows)

    def chunk(kind, body):
        return struct.pack('>I', len(body)) + kind + body + struct.pack('>I', zlib.crc32(kind + body))

    with open(target, 'wb') as file:
        file.write(b'\x89PNG\r\n\x1a\n' + chunk(b'IHDR', struct.pack('>IIBBBBB', width, len(rows), 8, 3, 0, 0, 0)) + chunk(b'PLTE', b''.join(colours)) + chunk(b'IDAT', zlib.compress(raw, 9)) + chunk(b'IEND', b''))


main()
