#!/usr/bin/env python3
"""Tests messages against their schemas with `capnp_canon validate --schema`, and compares the answers with C++ Cap'n Proto.

    validating.py [PROGRAM [MESSAGES [ALTERED]]]

`capnp compile` compiles `kinds.capnp` and `addressbook.capnp`. `capnp encode` makes MESSAGES random messages of each (by default
25), and ALTERED copies of each (by default 20) get one to three random changes. PROGRAM, by default `capnp_canon` at the top, tests
each of them on its own, and those that conform as one stream.

- Each message that `capnp encode` made conforms.
- `capnp decode` decodes each message that conforms, except for two faults of landing pads that upstream doesn't test.
- It refuses each that `validate` without a schema finds sound, but that doesn't conform.
- A refusal names a pointer, and if that is in a struct of the schema, the struct and a field of it.
- The struct's id in hex digits is as good as its name.

The last line is `N passed, M failed`."""
import pathlib
import random
import re
import subprocess
import sys
import tempfile

import conforming
from conforming import OF_PADS, REFUSED, SCHEMAS, altered, capnp, decoded, frames

TOP = pathlib.Path(__file__).resolve().parents[2]
MAKERS = {'kinds': conforming.kinds, 'book': conforming.book}
SAID = re.compile(r'capnp_canon: message (\d+) at byte (\d+): refused (\w+)(?: at segment \d+, word \d+(?:, in (?:pointer \d+ of )?([\w. ]+))?)?\n')


def compiled(schema, to):
    """Compiles a schema into a file, and returns the names of its fields, with those of their structs, and the id of its root."""
    path, name = SCHEMAS[schema]
    with open(to, 'wb') as file:
        subprocess.run(['capnp', 'compile', '-o-', path], stdout=file, check=True)
    shown = subprocess.run(['capnp', 'compile', '-ocapnp', path], stdout=subprocess.PIPE, encoding='utf-8', check=True).stdout
    ids = re.search(rf'struct {name} @(0x[0-9a-f]+)', shown)
    return set(re.findall(r'(\w+) @\d+ :', shown)), ids[1]


def runs(program, schema, text, messages):
    """The status of the run for each message and what it says, with this schema."""
    for message in messages:
        run = subprocess.run([program, 'validate', *(['--schema', text] if text else [])], input=message, stdout=subprocess.PIPE, stderr=subprocess.PIPE)
        yield run.returncode, run.stdout, run.stderr.decode()


def named(fields, said):
    """Whether a refusal is as the page says, and names a field."""
    found = SAID.fullmatch(re.sub(r'(?m)^.*the input looks like.*\n', '', said))
    return found is not None and (found[4] is None or any(it in fields for it in re.split(r'[. ]', found[4])))


def test(program, folder, schema, count, copies):
    """Tests messages of a schema, and altered copies. Returns how many tests passed and failed."""
    rng = random.Random(f'{schema} {count} {copies}')
    file = f'{folder}/{schema}.bin'
    fields, number = compiled(schema, file)
    text = f'{file}:{SCHEMAS[schema][1]}'
    made = list(frames(capnp('encode', schema, '\n'.join(MAKERS[schema](rng) for _ in range(count)).encode()).stdout))
    everything = made + [altered(rng, it) for it in made for _ in range(copies)]
    found = list(runs(program, schema, text, everything))
    yes = [it for it, answer in zip(everything, found) if answer[0] == 0]
    no = [it for it, answer in zip(everything, found) if answer[0] == 2]
    sound = [it for it, answer in zip(no, runs(program, schema, None, no)) if answer[0] == 0]
    stream = subprocess.run([program, 'validate', '--schema', text], input=b''.join(yes), stdout=subprocess.PIPE, stderr=subprocess.PIPE)
    tests = {
        'messages that were encoded conform': len(made) == count and all(it == (0, b'conforms\n', '') for it in found[:count]),
        'each message is answered': len(yes) + len(no) == len(everything),
        'messages that conform are decoded': all(any(it in said for it in OF_PADS) for said in decoded(schema, yes)[1]),
        'sound messages that do not conform are refused': all(capnp('decode', schema, it).returncode for it in sound[:REFUSED]),
        'messages of both kinds': bool(sound) and len(yes) > count,
        'refusals name a field': all(named(fields, answer[2]) for answer in found if answer[0] == 2),
        'some refusals name one': any(', in ' in answer[2] for answer in found),
        'the id is as good as the name': list(runs(program, schema, f'{file}:{number}', everything[:count * 2])) == found[:count * 2],
        'messages that conform are a stream': (stream.returncode, stream.stdout, stream.stderr) == (0, b'conforms\n' * len(yes), b''),
    }
    for name in [name for name, passed in tests.items() if not passed]:
        print(f'{schema}: {name}: failed')
    print(f'{schema}: {len(yes)} conform, {len(sound)} are sound and do not, {len(no) - len(sound)} are not sound')
    return sum(tests.values()), len(tests) - sum(tests.values())


def main(words):
    program, *numbers = words or [str(TOP / 'capnp_canon')]
    if not all(word.isdigit() for word in numbers) or len(numbers) > 2:
        sys.exit(__doc__)
    count, copies = (*map(int, numbers), *(25, 20)[len(numbers):])
    with tempfile.TemporaryDirectory(prefix='validating-') as folder:
        results = [test(program, folder, schema, count, copies) for schema in SCHEMAS]
    passed, failed = (sum(it) for it in zip(*results))
    print(f'{passed} passed, {failed} failed')
    return failed > 0


if __name__ == '__main__':
    sys.exit(main(sys.argv[1:]))
