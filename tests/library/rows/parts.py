#!/usr/bin/env python3
"""Writes parts.txt: paths into two frames of one value, and what the calls for a part answer to each.

    parts.py > parts.txt

The canonical words of a part come from C++ Cap'n Proto, which must be installed: the part's value is encoded as a message
of its own, and made canonical by `capnp convert`. A list is encoded as the only pointer of a struct; its words are those
behind the struct pointer. Which paths lead nowhere was worked out by hand."""
import hashlib
import pathlib
import subprocess

SCHEMA = pathlib.Path(__file__).resolve().parent / 'signed.capnp'
FRIEND = '(name = "Eve", age = 3)'
PAYLOAD = f'(name = "Ada", age = 36, friend = {FRIEND})'
PEOPLE = '[(name = "Bob", age = 1), (), (name = "Mallory", friend = (age = 9, friend = (name = "Zoe")))]'
NAMES = '["", "one", "a text that is longer than two words"]'
SIGNED = f'(payload = {PAYLOAD}, signature = "\\x01\\x02\\x03", people = {PEOPLE}, names = {NAMES}, number = 5)'
HEAD = '''# Parts of messages, and what each call for a part answers to them. parts.py writes this file. A line is six words:
#   NAME FRAME PATH ANSWER FLAT DIGEST
# FRAME is the bytes of the frame as hex digits. PATH is the indexes, each with a dot behind it, `-` where there are none. ANSWER is `Done`
# or the name of a refusal, and FLAT the canonical words as hex digits, `-` where there are none: those of `capnp convert binary:canonical`
# for the part's value; DIGEST the SHA-256 of FLAT by Python's hashlib, `-` where there is none. The limits are 64 levels and 8388608 words.
'''
# Each path, and the type and the text of the part's value; a list's type is that of the struct around it.
PARTS = {
    (): ('Signed', SIGNED),
    (0,): ('Person', PAYLOAD),
    (0, 0): ('OfText', '"Ada"'),
    (0, 1): ('Person', FRIEND),
    (0, 1, 0): ('OfText', '"Eve"'),
    (1,): ('OfData', '"\\x01\\x02\\x03"'),
    (2,): ('OfPeople', PEOPLE),
    (2, 0): ('Person', '(name = "Bob", age = 1)'),
    (2, 0, 0): ('OfText', '"Bob"'),
    (2, 1): ('Person', '()'),
    (2, 2): ('Person', '(name = "Mallory", friend = (age = 9, friend = (name = "Zoe")))'),
    (2, 2, 1): ('Person', '(age = 9, friend = (name = "Zoe"))'),
    (2, 2, 1, 1): ('Person', '(name = "Zoe")'),
    (2, 2, 1, 1, 0): ('OfText', '"Zoe"'),
    (3,): ('OfNames', NAMES),
    (3, 1): ('OfText', '"one"'),
    (3, 2): ('OfText', '"a text that is longer than two words"'),
}
# Paths to null pointers.
NULLS = [(0, 1, 1), (2, 0, 1), (2, 1, 0), (2, 1, 1), (2, 2, 1, 0)]
# Paths that lead nowhere: an index is too large; a pointer on the way is null; a list has no pointers.
NOWHERE = [(4,), (2 ** 32 - 1,), (0, 2), (0, 1, 1, 0), (2, 1, 1, 0), (1, 0), (0, 0, 0), (3, 1, 0), (3, 3), (2, 3), (2, 3, 0), (2, 0, 2), (2, 0, 0, 0)]


def run(input, *command):
    return subprocess.run(command, input=input, stdout=subprocess.PIPE, check=True).stdout


def encode(type, text, *options):
    return run(text.encode(), 'capnp', 'encode', *options, str(SCHEMA), type)


def canonical(type, text):
    is_list = type.startswith('Of')
    frame = encode(type, f'(it = {text})' if is_list else text)
    flat = run(frame, 'capnp', 'convert', '--quiet', 'binary:canonical')
    return flat[8:] if is_list else flat


def line(name, frame, path, answer='Done', flat=b''):
    digest = hashlib.sha256(flat).hexdigest() if flat else '-'
    print(name, frame.hex(), ''.join(f'{it}.' for it in path) or '-', answer, flat.hex() or '-', digest)


def main():
    print(HEAD, end='')
    for name, options in ('whole', ()), ('in_segments', ('--segment-size=2',)):
        frame = encode('Signed', SIGNED, *options)
        for path, (type, text) in PARTS.items():
            line(name, frame, path, flat=canonical(type, text))
        for path in NULLS:
            line(name, frame, path, flat=bytes(8))
        for path in NOWHERE:
            line(name, frame, path, 'NoSuchPlace')


main()
