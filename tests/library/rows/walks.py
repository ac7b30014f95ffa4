#!/usr/bin/env python3
"""Writes walks.txt: the objects of the messages of places.txt, and of altered ones, by a model that was written from docs/FORMAT.md and
bindings/c/capnp_canonical.h, over the reading of tests/streams/places.py.

    walks.py >walks.txt"""
import pathlib
import random
import sys

HERE = pathlib.Path(__file__).resolve().parent
sys.path.insert(0, str(HERE.parents[1] / 'streams'))

from places import TOO_DEEP, Reading, Refused, segments_of  # noqa: E402

NONE = 2 ** 64 - 1
STRUCT, CAPABILITY = 8, 9
LIMITS = (64, 8388608), (64, 6), (2, 8388608)
ALTERED = 200
HEAD = """\
# The objects of messages, by the model of walks.py. A line is six words:
#   NAME FRAME NESTING WORDS ANSWER OBJECTS
# FRAME is the bytes of the frame as hex digits. NESTING and WORDS are the limits. ANSWER is the name of the refusal, or `Done`.
# OBJECTS is `-` if there are none; otherwise the objects, separated by commas. An object is ten numbers, separated by colons, in the
# order of struct capnp_canonical_object."""


class Walk(Reading):
    """Reads a message as `validate` does, and notes each object before its children."""

    def __init__(self, segments, nesting, words):
        super().__init__('validate', segments, nesting, words)
        self.objects, self.parent = [], NONE

    def value(self, segment, at, levels):
        self.pointer = segment, at
        word = self.word(segment, at)
        if word == 0:
            return
        word, to, start = self.target(word, segment, at)
        kind = word & 3
        if kind == 2:
            self.refuse('MalformedDoubleFarPointer')
        if kind == 3:
            if word & 0xFFFFFFFF != 3:
                self.refuse('UnknownPointerType')
            self.note(segment, 0, at, 0, CAPABILITY, capability=word >> 32)
            return
        if levels == 0:
            self.refuse(TOO_DEEP)
        size, count = word >> 32 & 7, word >> 35
        places = list(self.elements(word, to, start) if kind == 1 and size == 7 else self.entered(word, to, start))
        parent, index = self.parent, len(self.objects)
        if kind == 0:
            self.note(segment, to, at, start, STRUCT, data=word >> 32 & 0xFFFF, pointers=word >> 48)
        elif size == 7:
            tag = self.word(to, start)
            self.note(segment, to, at, start + 1, 7, tag >> 2 & 0x3FFFFFFF, data=tag >> 32 & 0xFFFF, pointers=tag >> 48)
        else:
            self.note(segment, to, at, start, size, count)
        self.parent = index
        for place in places:
            self.value(to, place, levels - 1)
        self.parent = parent

    def note(self, pointer_segment, segment, pointer_word, word, kind, count=0, capability=0, data=0, pointers=0):
        self.objects.append((self.parent, pointer_segment, segment, pointer_word, word, kind, count, capability, data, pointers))


def walked(segments, nesting, words):
    """The answer for these segments, and their objects."""
    walk = Walk(segments, nesting, words)
    try:
        walk.root()
    except Refused as refused:
        return refused.name, walk.objects
    return 'Done', walk.objects


def line(name, frame, nesting, words):
    answer, objects = walked(segments_of(frame), nesting, words)
    return ' '.join((name, frame.hex(), str(nesting), str(words), answer, ','.join(':'.join(map(str, it)) for it in objects) or '-'))


def altered(frame, chance):
    """The frame with some words of its segments replaced by others of them, or by pointers near them."""
    count = int.from_bytes(frame[:4], 'little') + 1
    table, changed = (4 * (count + 1) + 7) // 8, bytearray(frame)
    for _ in range(chance.randint(1, 3)):
        at = 8 * chance.randrange(table, len(frame) // 8)
        word = int.from_bytes(frame[at:at + 8], 'little')
        word = chance.choice((word ^ 1 << chance.randrange(64), chance.getrandbits(64), word + 4, 3 | chance.getrandbits(32) << 32))
        changed[at:at + 8] = (word % 2 ** 64).to_bytes(8, 'little')
    return bytes(changed)


def main():
    frames = {}
    for row in (HERE / 'places.txt').read_text(encoding='utf-8').splitlines():
        if not row.startswith('#'):
            name, frame = row.split()[:2]
            frames[frame] = name
    print(HEAD)
    for frame, name in frames.items():
        for limits in LIMITS:
            print(line(name, bytes.fromhex(frame), *limits))
    chance = random.Random('objects')
    long = [(name, bytes.fromhex(frame)) for frame, name in frames.items() if 32 <= len(frame) // 2 <= 2000]
    for _ in range(ALTERED):
        name, frame = chance.choice(long)
        print(line(f'{name}_altered', altered(frame, chance), 64, 8388608))


main()
