#!/usr/bin/env python3
"""Writes prefixes.txt again, from messages.txt and parts.txt, with `capnp` and Python's hashlib.

    prefixes.py [--check]

With --check it only says whether the file would be the same. Needs capnp."""
import hashlib
import pathlib
import subprocess
import sys

HERE = pathlib.Path(__file__).resolve().parent
TO = HERE / 'prefixes.txt'
TOP = '''# Digests of a prefix and then the canonical words of a message or of a part of one, and packed frames. prefixes.py writes this file.
# A line is six words:
#   NAME FRAME PATH PREFIX DIGEST PACKED
# FRAME and PREFIX are bytes as hex digits, `-` if there are none. PATH is the indexes, each with a dot behind it, `-` if there are
# none. DIGEST is the SHA-256 of PREFIX and then the words that messages.txt or parts.txt has, by Python's hashlib. PACKED is what
# `capnp convert binary:packed` makes of the frame, `-` if it makes another frame first, as of a message of several segments.
'''
PREFIXES = [b'', b'\x01\x02\x03\x04\x05\x06\x07\x88', b'p', bytes(range(55)), bytes(range(64)), bytes(range(100, 228))]


def rows(name):
    for line in (HERE / name).read_text(encoding='utf-8').splitlines():
        if not line.startswith('#'):
            yield line.split(' ')


def converted(forms, message):
    command = ['capnp', 'convert', '--quiet', forms]
    return subprocess.run(command, input=message, stdout=subprocess.PIPE, stderr=subprocess.DEVNULL, check=True).stdout


def packed(frame):
    """What capnp packs the frame to; nothing if it packs a copy that is another frame, as of a message of several segments."""
    made = converted('binary:packed', frame)
    return made if converted('packed:flat', made) == frame[8:] and frame[:4] == bytes(4) else b''


def lines():
    found = [(name, frame, '-', flat) for name, frame, copy, flat, *_ in rows('messages.txt') if copy == 'Done']
    found = [it for it in found for _ in range(3)] + [(name, frame, path, flat) for name, frame, path, answer, flat, _ in rows('parts.txt') if answer == 'Done'][::4]
    for number, (name, frame, path, flat) in enumerate(found):
        prefix = PREFIXES[number % len(PREFIXES)]
        digest = hashlib.sha256(prefix + bytes.fromhex(flat)).hexdigest()
        yield ' '.join([name, frame, path, prefix.hex() or '-', digest, packed(bytes.fromhex(frame)).hex() or '-'])


text = TOP + ''.join(line + '\n' for line in lines())
if '--check' in sys.argv[1:]:
    sys.exit('prefixes.txt would be another' if text != TO.read_text(encoding='utf-8') else None)
TO.write_text(text, encoding='utf-8')
