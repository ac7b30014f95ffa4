#!/usr/bin/env python3
"""Tests messages against their schemas, with `capnp decode` beside.

    conforming.py [MESSAGES [ALTERED]]

`capnp encode` makes MESSAGES random messages (by default 50) of `kinds.capnp` and as many of `addressbook.capnp`, and ALTERED
copies of each (by default 40) get one to three random changes. The program `conforming_runs` of tests/crates tests each of
them, reads each by getters that may be refused, and after a yes by getters that can't be. It fails if two of these disagree.

- Each message that `capnp encode` made conforms.
- `capnp decode` decodes each message that conforms, except for two faults of landing pads that upstream doesn't test.
- It refuses each that can be read whole but doesn't conform, unless that is because of a text that isn't UTF-8. Then it
  prints bytes that aren't UTF-8. The texts of an address book that conforms are.

Prints how many answers of each kind there were. The last line is `N passed, M failed`."""
import collections
import pathlib
import random
import subprocess
import sys

HERE = pathlib.Path(__file__).resolve().parent
sys.path.insert(0, str(HERE.parent))
from crates.run import CONFORMING_RUNS, build
from messages import altered

SCHEMAS = {'kinds': (HERE / 'kinds.capnp', 'Kinds'), 'book': (HERE / 'addressbook.capnp', 'AddressBook')}
# Faults of two-word landing pads that C++ refuses, and upstream doesn't.
OF_PADS = b'Second word of double-far pad must be far pointer', b'double-far pointer to unknown segment'
# The refusal of a text that isn't UTF-8.
NOT_UTF8 = 'ExistingListValueIsIncompatibleWithExpectedType'
# How many messages that don't conform are decoded, at most: each needs a process.
REFUSED = 300


def some(rng, field, most=3):
    return f'[{", ".join(field() for _ in range(rng.randrange(most + 1)))}]'


def fields(rng, choices):
    """A struct with some of these fields."""
    return f'({", ".join(f"{name} = {value()}" for name, value in choices.items() if rng.random() < .6)})'


def text(rng):
    return f'"{"".join(rng.choice("abcxyz ") for _ in range(rng.randrange(20)))}"'


def data(rng):
    return f'0x"{rng.randbytes(rng.randrange(1, 20)).hex(" ")}"'


def kinds(rng, depth=3):
    """A `Kinds`, as `capnp encode` takes it."""
    def item():
        return fields(rng, {'name': lambda: text(rng), 'number': lambda: str(rng.randrange(2 ** 32))})
    choices = {
        'text': lambda: text(rng),
        'data': lambda: data(rng),
        'texts': lambda: some(rng, lambda: text(rng)),
        'numbers': lambda: some(rng, lambda: str(rng.randrange(2 ** 32)), 9),
        'bits': lambda: some(rng, lambda: rng.choice(['true', 'false']), 70),
        'items': lambda: some(rng, item),
        'lists': lambda: some(rng, lambda: some(rng, lambda: str(rng.randrange(2 ** 16)), 5)),
        **({'next': lambda: kinds(rng, depth - 1)} if depth else {}),
        **rng.choice([
            {'name': lambda: text(rng)},
            {'item': item},
            {'inner': lambda: f'(bytes = {data(rng)})'},
            {'inner': lambda: f'(more = {some(rng, item)})'},
            {'nothing': lambda: 'void'},
        ]),
    }
    return fields(rng, choices)


def book(rng):
    """An `AddressBook`, as `capnp encode` takes it."""
    def phone():
        return fields(rng, {'number': lambda: text(rng), 'type': lambda: rng.choice(['mobile', 'home', 'work'])})

    def person():
        employment = rng.choice([f'employer = {text(rng)}', f'school = {text(rng)}', 'unemployed = void'])
        return fields(rng, {
            'id': lambda: str(rng.randrange(2 ** 32)), 'name': lambda: text(rng), 'email': lambda: text(rng),
            'phones': lambda: some(rng, phone), 'employment': lambda: f'({employment})',
        })
    return f'(people = {some(rng, person, 6)})'


def capnp(command, schema, given):
    path, name = SCHEMAS[schema]
    return subprocess.run(['capnp', command, path, name], input=given, stdout=subprocess.PIPE, stderr=subprocess.PIPE)


def decoded(schema, messages):
    """What `capnp decode` prints for those of the messages that it decodes, and its errors for the others."""
    run = capnp('decode', schema, b''.join(messages))
    if run.returncode == 0:
        return run.stdout, []
    half = len(messages) // 2
    if not half:
        return b'', [run.stderr]
    (one, first), (two, second) = decoded(schema, messages[:half]), decoded(schema, messages[half:])
    return one + two, first + second


def is_utf8(text):
    try:
        text.decode()
    except UnicodeDecodeError:
        return False
    return True


def frames(stream):
    """The frames of a stream, each of one segment."""
    at = 0
    while at < len(stream):
        size = 8 + 8 * int.from_bytes(stream[at + 4:at + 8], 'little')
        yield stream[at:at + size]
        at += size


def answers(schema, messages):
    """What conforming_runs prints for each of the messages; None if it fails."""
    run = subprocess.run([CONFORMING_RUNS, schema], input=b''.join(messages), stdout=subprocess.PIPE)
    found = [it.split() for it in run.stdout.decode().splitlines()]
    return found if run.returncode == 0 and len(found) == len(messages) else None


def test(schema, make, count, copies):
    """Tests messages of a schema, and altered copies. Returns how many tests passed and failed."""
    rng = random.Random(f'{schema} {count} {copies}')
    made = list(frames(capnp('encode', schema, '\n'.join(make(rng) for _ in range(count)).encode()).stdout))
    all_made = made + [altered(rng, it) for it in made for _ in range(copies)]
    found = answers(schema, all_made)
    if len(made) != count or found is None:
        print(f'{schema}: conforming_runs or capnp encode failed')
        return 0, 1
    yes = [it for it, answer in zip(all_made, found) if answer[0] == 'yes']
    coded = [it for it, answer in zip(all_made, found) if answer[1] == NOT_UTF8 and answer[2] == 'ok']
    readable = [it for it, answer in zip(all_made, found) if answer[0] == 'no' and answer[2] == 'ok' and it not in coded]
    printed, errors = decoded(schema, yes)
    counts = collections.Counter((answer[0], *('ok' if it == 'ok' else 'refused' for it in answer[2:])) for answer in found)
    for (test, validate, getters), number in sorted(counts.items()):
        print(f'{schema}: {test}: {number} messages, validate: {validate}, getters: {getters}')
    tests = {
        'messages that were encoded conform': all(answer[0] == 'yes' for answer in found[:count]),
        'messages that conform are decoded': all(any(it in said for it in OF_PADS) for said in errors),
        'readable messages that do not conform are refused': all(capnp('decode', schema, it).returncode for it in readable[:REFUSED]),
        'texts that are refused are not UTF-8': not any(is_utf8(capnp('decode', schema, it).stdout) for it in coded[:REFUSED]),
        'texts of a book that conforms are UTF-8': schema != 'book' or is_utf8(printed),
        'messages of each kind': bool(readable) and bool(coded) and len(yes) > count,
    }
    for name in [name for name, passed in tests.items() if not passed]:
        print(f'{schema}: {name}: failed')
    return sum(tests.values()), len(tests) - sum(tests.values())


def main(words):
    if not all(word.isdigit() for word in words) or len(words) > 2:
        sys.exit(__doc__)
    count, copies = (*map(int, words), *(50, 40)[len(words):])
    if build() == 0:
        sys.exit('conforming.py: cargo built nothing')
    results = [test('kinds', kinds, count, copies), test('book', book, count, copies)]
    passed, failed = (sum(it) for it in zip(*results))
    print(f'{passed} passed, {failed} failed')
    return failed > 0


if __name__ == '__main__':
    sys.exit(main(sys.argv[1:]))
