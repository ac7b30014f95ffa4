"""What `capnp_canon diff` writes, by a model that is written from docs/PROGRAM.md and shares no code with the program: it compares
what the models of shown.py and places.py read of two messages, object by object. Compares pairs of messages of tests/corpus, with
changes by fixed seeds."""
import json
import random

import places
import shown
from vectors import without_guess

RUNS, PAIRS, MOST_TEXT = 60, 20, 1024
NAMES = 'left.bin', 'right.bin'
# The keys of an object whose values are objects, and how a step to one of these is written.
STEPS = {'pointers': '{}', 'list': '[{}]', 'structs': '[{}]'}


def first_difference(left, right, path=()):
    """The path to the first object that differs, and both; None if there is none."""
    if left == right:
        return None
    if left is not None and right is not None:
        for (key, a), (other, b) in zip(left.items(), right.items()):
            if key == other and key in STEPS:
                for at, (x, y) in enumerate(zip(a, b)):
                    found = first_difference(x, y, (*path, STEPS[key].format(at)))
                    if found:
                        return found
            if key != other or a != b:
                break
    return '.'.join(path) or 'root', left, right


def text_of(value):
    text = json.dumps(value, separators=(',', ':'), ensure_ascii=False)
    encoded = text.encode()
    return text if len(encoded) <= MOST_TEXT else encoded[:MOST_TEXT].decode('utf-8', 'ignore') + ' ..'


def value_of(frame):
    model = shown.Json(shown.segments_of(frame), False, shown.DEPTH, nesting=shown.NESTING, words=shown.WORDS)
    return json.loads(model.message(1, []))


def refusal_of(frame):
    return places.refusal('validate', places.segments_of(frame), shown.NESTING, shown.WORDS)


def expected(pairs):
    """The output, the exit status and standard error of a run over these pairs of messages."""
    output, starts = '', [0, 0]
    for number, pair in enumerate(pairs, 1):
        for name, start, frame in zip(NAMES, starts, pair):
            refused = refusal_of(frame)
            if refused:
                where = f'at segment {refused.segment}, word {refused.word}'
                return output.encode(), 2, f'capnp_canon: {name}: message {number} at byte {start}: refused {refused.name} {where}\n'
        found = first_difference(*map(value_of, pair))
        if found:
            path, *values = found
            output += f'message {number}: {path}\n< {text_of(values[0])}\n> {text_of(values[1])}\n'
        starts = [start + len(frame) for start, frame in zip(starts, pair)]
    return output.encode(), 1 if output else 0, ''


def pairs_of(rng, frames):
    """Pairs of messages. In one run of four, messages that aren't sound are left in."""
    keeps_all = rng.random() < 0.25
    found = []
    while len(found) < PAIRS:
        frame = rng.choice(frames)
        pair = rng.choice(((frame, frame), (frame, shown.altered(rng, frame)), (shown.altered(rng, frame), frame), (frame, rng.choice(frames))))
        if keeps_all or not any(map(refusal_of, pair)):
            found.append(pair)
    return found


def runs(program, counts):
    rng, frames = random.Random(86), list(shown.frames())
    for _ in range(RUNS):
        pairs = pairs_of(rng, frames)
        files = {name: b''.join(pair[at] for pair in pairs).hex() for at, name in enumerate(NAMES)}
        wanted = expected(pairs)
        got = without_guess(*program.run_case({'args': ['diff', *NAMES], 'input': '', 'files': files}))
        counts.told(got == wanted, 'diff', shown.first_difference(wanted[0], got[0]), got[1:], wanted[1:])
        quiet = program.run_case({'args': ['diff', '--quiet', *NAMES], 'input': '', 'files': files})
        counts.told(quiet[:2] == (b'', wanted[1]), 'diff --quiet', quiet[1:], wanted[1:])
