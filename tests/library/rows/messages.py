#!/usr/bin/env python3
"""Writes messages.txt: ten messages, good and bad, and what each call of the library answers to them.

    messages.py > messages.txt

The canonical words come from `capnp convert binary:canonical` of C++ Cap'n Proto, which must be installed. The rest was
worked out by hand."""
import hashlib
import pathlib
import subprocess

SCHEMA = pathlib.Path(__file__).resolve().parents[2] / 'peer/people.capnp'
BOOK = '''(title = "People", people = [
  (id = 7, name = "Ada", phones = [(number = "12"), (number = "345", kind = 2)], birth = (year = 1815), flags = [true, false, true],
   scores = [[1.5], [], [2.5, -0.0]], blob = "\\x01\\x02", voids = [void, void], note = "first"),
  (id = 8, ages = [1, 2, 3], friends = [(name = "Eve")], number = -5, height = 1.75)])'''
# The friends of the second person have three data words, and all are zero.
BOOK_FAULT = '12,0,50'
BOOK_SIZE = '67,0'
HEAD = '''# Ten messages, good and bad, and what each call answers to them. messages.py writes this file. A line is seven words:
#   NAME FRAME COPY FLAT CHECK SIZE DIGEST
# FRAME is the bytes of the frame as hex digits, `-` where there are none. COPY is the answer of both copies and of the digest: `Done` or
# the name of a refusal; FLAT the canonical words as hex digits, `-` where there are none: those of `capnp convert binary:canonical`. The
# framed copy is FLAT behind 00000000 and its length in words, four bytes, the lowest first. CHECK is `yes`, or REASON,SEGMENT,WORD, or the
# name of a refusal; SIZE is WORDS,CAPS or the name of a refusal; DIGEST the SHA-256 of FLAT by Python's hashlib, `-` where there is none.
# The limits are 64 levels and 8388608 words.
'''


def run(input, *command):
    return subprocess.run(command, input=input, stdout=subprocess.PIPE, check=True).stdout


def encode(*options):
    return run(BOOK.encode(), 'capnp', 'encode', *options, str(SCHEMA), 'Book')


def words(*them):
    return b''.join(it.to_bytes(8, 'little') for it in them)


def frame(*them):
    return bytes(4) + len(them).to_bytes(4, 'little') + words(*them)


def struct(offset, data, pointers):
    return (offset << 2) % 2 ** 32 | data << 32 | pointers << 48


def line(name, bytes, copy='Done', check='yes', size='0,0'):
    flat = run(bytes, 'capnp', 'convert', '--quiet', 'binary:canonical') if copy == 'Done' else b''
    digest = hashlib.sha256(flat).hexdigest() if flat else '-'
    print(name, bytes.hex() or '-', copy, flat.hex() or '-', check, size, digest)


def main():
    print(HEAD, end='')
    line('empty_struct', frame(struct(-1, 0, 0)))
    line('canonical', frame(struct(0, 2, 0), 0x1111111111111111, 1 << 63), size='2,0')
    line('zero_word', frame(struct(0, 3, 0), 0x1111111111111111, 1 << 63, 0), check='9,0,3', size='3,0')
    line('book', encode(), check=BOOK_FAULT, size=BOOK_SIZE)
    line('book_in_segments', encode('--segment-size=3'), check='1,1,0', size=BOOK_SIZE)
    line('capability', frame(struct(0, 0, 1), 3), copy='CannotCreateACanonicalMessageWithACapability', check='4,0,1', size='1,1')
    line('out_of_bounds', frame(struct(1, 1, 0), 5), **{it: 'MessageContainsOutOfBoundsPointer' for it in ('copy', 'check', 'size')})
    line('cycle', frame(struct(-1, 0, 1)), copy='MessageIsTooDeeplyNestedOrContainsCycles', check='7,0,0', size='MessageIsTooDeeplyNested')
    line('cut_short', frame(struct(0, 1, 0), 5)[:-1], **{it: 'Truncated' for it in ('copy', 'check', 'size')})
    line('no_bytes', b'', **{it: 'NoMessage' for it in ('copy', 'check', 'size')})


main()
