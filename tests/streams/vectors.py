"""Makes streams from the vectors of tests/vectors. A stream has the messages of several vectors of `canon`, `size` or
`framed-check` in order, up to one that is refused. Vectors have one message each and answers in hex digits; here the
answers are put together to that of the stream."""
import itertools
import json
import pathlib
import re
from concurrent.futures import ThreadPoolExecutor

from frames import MOST_SEGMENTS, framed
from packing import packed
from places import segments_of
from places import told as told_place
from runs import same

FILES = pathlib.Path(__file__).resolve().parents[1] / 'vectors'
COMMANDS = {'canon': ['canon'], 'size': ['size'], 'framed-check': ['check']}
CHECKED = {'canonical message\n': b'canonical\n', 'not a canonical message\n': b'not canonical\n'}
MOST_MESSAGES = 40
# Refusals of no pointer, because no message is read.
OF_FRAMES = 'Truncated', 'MessageTooLong', 'TooManySegments', 'NoMessage'


def messages():
    """Each message of a vector: its command, its limits, its frame, and the answer or refusal."""
    for path in sorted(FILES.glob('*.jsonl')):
        for line in path.open(encoding='utf-8'):
            vector = json.loads(line)
            if vector['status'] == 2 or vector['args'][0] not in COMMANDS:
                continue
            if not re.fullmatch('([0-9a-fA-F]*\n)+', vector['stdin']):
                continue
            command, nesting, words = vector['args']
            lines = [bytes.fromhex(it) for it in vector['stdin'].split('\n')[:-1]]
            frame = lines[0] if command == 'framed-check' else bytes.fromhex(framed(lines))
            yield command, (nesting, words), frame, vector['stdout']


def length(frame):
    """The size in bytes of a frame according to its table, and its number of words; None if the table is cut short or too long."""
    count = int.from_bytes(frame[:4], 'little') + 1
    start = (4 * (count + 1) + 7) // 8 * 8
    if len(frame) < start or count > MOST_SEGMENTS:
        return None
    words = sum(int.from_bytes(frame[at:at + 4], 'little') for at in range(4, 4 * (count + 1), 4))
    return start + 8 * words, words


def place(command, limits, frame, name):
    """The text after the name of a refusal: the segment and word of the pointer that is refused, if one is."""
    nesting, words = limits
    read = 'check' if command == 'framed-check' else command
    return '' if name in OF_FRAMES else told_place(name, read, segments_of(frame), int(nesting), None if words == 'none' else int(words))


def answered(command, limits, frame, text):
    """The frame without the bytes after it, and what a stream answers to it: bytes, or the name and place of a refusal. A frame
    of more words than the limit is refused for that."""
    limit, told = limits[1], length(frame)
    if told and limit != 'none' and told[1] > int(limit):
        return frame, 'MessageTooLong'
    if told and len(frame) > told[0]:
        frame = frame[:told[0]]
    if text.startswith('refused '):
        return frame, text.split()[1] + place(command, limits, frame, text.split()[1])
    if command == 'canon':
        return frame, bytes.fromhex(framed([bytes.fromhex(text)]))
    return frame, text.encode() if command == 'size' else CHECKED[text]


def chains(given):
    """Splits the messages into parts. In each part at most one message is refused, the last one."""
    chain = []
    for frame, answer in given:
        chain.append((frame, answer))
        if isinstance(answer, str) or len(chain) == MOST_MESSAGES:
            yield chain
            chain = []
    if chain:
        yield chain


def stream(chain):
    """The bytes of the messages, and the expected answer to the stream."""
    data = b''.join(frame for frame, _ in chain)
    output = b''.join(answer for _, answer in chain if not isinstance(answer, str))
    last = chain[-1][1]
    if isinstance(last, str):
        start = len(data) - len(chain[-1][0])
        return data, (output, 2, f'capnp_canon: message {len(chain)} at byte {start}: refused {last}\n')
    return data, (output, 1 if b'not canonical\n' in output else 0, '')


def runs():
    """Each run: its arguments, its input and the expected answer; plain, and also packed if the input is whole words."""
    given = sorted(messages(), key=lambda it: it[:2])
    for (command, (nesting, words)), group in itertools.groupby(given, key=lambda it: it[:2]):
        found = [answered(command, (nesting, words), frame, text) for _, _, frame, text in group if frame]
        for chain in chains(found):
            data, wanted = stream(chain)
            args = [*COMMANDS[command], '--nesting', nesting, '--words', words]
            yield args, data, wanted
            if len(data) % 8 == 0:
                yield [*args, '--packed'], packed(data), wanted


def without_guess(output, status, error):
    """An answer without the lines that guess what the input looks like."""
    return output, status, ''.join(it for it in error.splitlines(True) if not it.startswith('capnp_canon: the input looks like '))


def streams(program, counts):
    given = list(runs())
    with ThreadPoolExecutor(4) as pool:
        for (args, data, wanted), got in zip(given, pool.map(lambda it: without_guess(*program.run(it[0], it[1])), given)):
            same(counts, f'{args} {data.hex():.400}', args, wanted, got)
