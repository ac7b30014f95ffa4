#!/usr/bin/env python3
"""Writes the vectors of tests/vectors that calls of the library can answer, one per line, for vectors.c:

    COMMAND NESTING WORDS PARTS WANTED

PARTS is the segments as hex digits, separated by commas; for `framed-check` and `unframe`, the frame. `.` is a part without
bytes, and `-` means no parts. WANTED is the expected answer: hex digits, or `-` for none; `yes`, `no` or `front`; numbers;
or `!` and the name of a refusal. `front` means that a segment begins with canonical words; anything may
come after them.

Leaves out the vectors of `frame`, which the library doesn't have, and those of arguments and lines that can't be read."""
import collections
import json
import pathlib
import re
import sys

TESTS = pathlib.Path(__file__).resolve().parents[1]
sys.path += [str(TESTS / 'streams'), str(TESTS / 'hostile')]

from frames import whole_words
from vectors import length

Vector = collections.namedtuple('Vector', 'command nesting words parts wanted')
NO_LIMIT = 2**64 - 1
MOST_WORDS = '8388608'
ANSWERS = {'canonical\n': 'front', 'not canonical\n': 'no', 'canonical message\n': 'yes', 'not a canonical message\n': 'no'}


def wanted(command, parts, words, text):
    """What the library answers if layout_tool answers with this text."""
    if command == 'framed-check':
        told = length(parts[0])
        if told and told[1] > words:
            return '!MessageTooLong'
    if text.startswith('refused '):
        return f'!{text.split()[1]}'
    if command == 'size':
        return ','.join(re.findall(r'\d+', text))
    if command == 'unframe':
        return str(length(parts[0])[0])
    return ANSWERS.get(text) or text.strip() or '-'


def vectors():
    for path in sorted((TESTS / 'vectors').glob('*.jsonl')):
        for line in path.open(encoding='utf-8'):
            it = json.loads(line)
            command, *limits = it['args'] or ['']
            if it['status'] == 2 or command not in ('canon', 'check', 'size', 'framed-canon', 'framed-check', 'unframe'):
                continue
            if not re.fullmatch('([0-9a-fA-F]*\n)*', it['stdin']):
                continue
            parts = [bytes.fromhex(part) for part in it['stdin'].split('\n')[:-1]]
            is_frame = command in ('framed-check', 'unframe')
            parts = (parts or [b'']) if is_frame else [whole_words(part) for part in parts]
            if command == 'check' and len(parts) != 1:
                # further segments: the library answers no, with a reason of its own
                continue
            nesting, words = limits or ('64', MOST_WORDS)
            words = NO_LIMIT if words == 'none' else int(words)
            yield Vector(command, nesting, words, parts, wanted(command, parts, words, it['stdout']))


def main():
    for it in vectors():
        parts = ','.join(part.hex() or '.' for part in it.parts)
        print(it.command, it.nesting, it.words, parts or '-', it.wanted)


main()
