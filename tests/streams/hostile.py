"""Runs the engine of capnp_canon on a stream of six messages. The stream is cut short after each byte and has each bit flipped, plain
and packed. The answers to the messages before a refused one must be written, and nothing of the refused one.

`runs` does this with the program stream_runs, whose devices also move few bytes at a time and fail at each call in turn.
`altered` does it with a built capnp_canon, in a process for each stream, and leaves out devices that fail and `canon --flat`.

The expected answers to the six messages were worked out by hand. The expected answer to an altered message is what the
program answers to a stream of this message only. tests/hostile/frames.py finds the frames of an altered stream, and
packing.py unpacks packed bytes."""
import collections
import concurrent.futures
import hashlib
import os
import re

from frames import framed, refusal, table_of
from packing import packed, unpacked
from program import answers
from runs import without_reasons

# The segments of each message, its canonical words, its number of words without the root pointer and landing pads, and how
# many structs and lists of it are inside one another.
SIX = (
    # a struct of three data words that ends in a zero word
    ('0000000003000000111111111111111100000000000000800000000000000000', '000000000200000011111111111111110000000000000080', 3, 1),
    ('0000000000000000', '0000000000000000', 0, 0),
    # a landing pad of two words
    ('0600000001000000 02000000020000000000000001000000 aabbccddeeff0102', '0000000001000000aabbccddeeff0102', 1, 1),
    # a text
    ('010000003200000068656c6c6f000000', '010000003200000068656c6c6f000000', 1, 1),
    # two structs of a word and a pointer each: 1 and a text, 2 and null
    (
        '01000000270000000800000001000100010101010101010109000000320000000200000000000000' '00000000000000006162636465000000',
        '01000000270000000800000001000100010101010101010109000000320000000200000000000000' '00000000000000006162636465000000',
        6,
        2,
    ),
    # a struct of a word and nine bits
    ('0000000001000100ffffffffffffffff0100000049000000ff01000000000000', '0000000001000100ffffffffffffffff0100000049000000ff01000000000000', 3, 2),
)
FORMS = 'canon', 'canon,--flat', 'check', 'size', 'digest', 'validate'
ALL = 'none,none'
ANSWER = re.compile(r'(?:(done|stopped) (\d+) (\w+)|(unflushed)) -([0-9a-f]*)')
# What capnp_canon writes after the digest of a message on standard input, and says when it refuses one.
NAMED = re.compile(rb'(?m)  -:\d+$')
REFUSED = re.compile(r'capnp_canon: message (\d+) at byte \d+: refused (\w+)')
Answer = collections.namedtuple('Answer', 'how number word written')


def message(row):
    return bytes.fromhex(framed([bytes.fromhex(it) for it in row[0].split()]))


def wanted(form, row):
    """The expected answer to one of the six messages."""
    segments, words, size, depth = row
    if form == 'check':
        return b'canonical\n' if segments == words else b'not canonical\n'
    if form == 'size':
        return f'words {size} caps 0\n'.encode()
    if form == 'validate':
        return f'sound: depth {depth}, words {size}, capabilities 0\n'.encode()
    if form == 'digest':
        return hashlib.sha256(bytes.fromhex(words)).hexdigest().encode() + b'\n'
    return bytes.fromhex(words if form == 'canon,--flat' else framed([bytes.fromhex(words)]))


MESSAGES = [message(row) for row in SIX]
STREAM = b''.join(MESSAGES)
WANTED = {form: [wanted(form, row) for row in SIX] for form in FORMS}


def ends(parts):
    """The total size in bytes of the first n parts, for each n from 0 on."""
    found = [0]
    for part in parts:
        found.append(found[-1] + len(part))
    return found


def whole_below(parts, count):
    """The number of parts that are complete within the first `count` bytes."""
    return sum(end <= count for end in ends(parts)) - 1


def answered(text):
    found = ANSWER.fullmatch(text)
    if not found:
        return Answer(text, 0, '', b'')
    how, number, word, unflushed, written = found.groups()
    return Answer(how or unflushed, int(number or 0), word, bytes.fromhex(written))


def asked(program, lines):
    return [answered(it) for it in answers(program, lines)]


def line(form, data, reads=ALL, writes=ALL):
    return f'{form} {reads} {writes} {data.hex() or "-"}'


def holds(form, number=len(SIX)):
    """The last word of a run that reaches the end: `true` if every answer is a yes, otherwise `false`."""
    return 'false' if form == 'check' and b'not canonical\n' in WANTED[form][:number] else 'true'


def is_front(form, answer):
    """Whether the output is the answers to the messages that the run says it answered."""
    front = b''.join(WANTED[form][:answer.number])
    return without_reasons(front, answer.written) == front


def number_of_answers(form, written):
    """How many messages a run of capnp_canon answered that wrote this: one frame or one line for each."""
    return len(frames(written)[0]) if form == 'canon' else written.count(b'\n')


def asked_of_canon(program, text):
    """What capnp_canon answers to a line for stream_runs whose devices don't fail, in a process of its own."""
    words, _, _, digits = text.split(' ')
    written, status, error = program.run(words.split(','), bytes.fromhex(digits.strip('-')))
    if words.startswith('digest'):
        written = NAMED.sub(b'', written)
    found = REFUSED.match(error)
    if status == 2 and found:
        return Answer('stopped', int(found[1]) - 1, found[2], written)
    if status not in (0, 1) or error:
        return Answer(f'status {status}: {error}', 0, '', written)
    return Answer('done', number_of_answers(words.split(',')[0], written), 'true' if status == 0 else 'false', written)


class Runs:
    """Runs of a program, which is asked by a function that takes it and lines."""

    def __init__(self, program, counts, forms=FORMS, asked=asked):
        self.program, self.counts, self.forms, self.asked = program, counts, forms, asked

    def strained(self):
        """Devices that move few bytes at a time."""
        lines = [
            (form, packing, line(form + packing, packed(STREAM) if packing else STREAM, f'none,{reads}', f'none,{writes}'))
            for form in self.forms
            for packing in ('', ',--packed')
            for reads in range(1, 12)
            for writes in range(1, 12)
        ]
        for (form, packing, text), got in zip(lines, self.asked(self.program, [it[2] for it in lines])):
            good = (got.how, got.number, got.word) == ('done', len(SIX), holds(form)) and is_front(form, got)
            self.counts.told(good, 'few bytes at a time', text, got)

    def failed_reads(self):
        """Lets each read in turn fail, of reads of one byte. The messages that were read before must be answered."""
        for form in self.forms:
            lines = [line(form, STREAM, f'{calls},1') for calls in range(len(STREAM) + 2)]
            for calls, got in enumerate(self.asked(self.program, lines)):
                how = 'stopped', whole_below(MESSAGES, calls), 'ReadFailed'
                if calls > len(STREAM):
                    how = 'done', len(SIX), holds(form)
                self.counts.told((got.how, got.number, got.word) == how and is_front(form, got), 'a failed read', form, calls, got)

    def failed_packed_reads(self):
        """Lets each read of a packed input in turn fail. The run may read more than a message takes, and may read the end twice."""
        data = packed(STREAM)
        for form in self.forms:
            lines = [line(form + ',--packed', data, f'{calls},1') for calls in range(len(data) + 3)]
            for calls, got in enumerate(self.asked(self.program, lines)):
                ways = [('stopped', 'ReadFailed')] if calls <= len(data) + 1 else []
                if calls > len(data):
                    ways.append(('done', holds(form)))
                self.counts.told((got.how, got.word) in ways and is_front(form, got), 'a failed packed read', form, calls, got)

    def failed_writes(self):
        """Lets each write in turn fail, of writes of one byte. The output must be the first bytes of the answers."""
        for form in self.forms:
            output = self.asked(self.program, [line(form, STREAM)])[0].written
            lines = [line(form, STREAM, ALL, f'{calls},1') for calls in range(len(output) + 1)]
            for calls, got in enumerate(self.asked(self.program, lines)):
                good = got.written == output[:calls]
                if calls == len(output):
                    good &= (got.how, got.number, got.word) == ('done', len(SIX), holds(form))
                else:
                    good &= (got.how, got.word) == ('stopped', 'WriteFailed')
                    if form != 'check':
                        good &= got.number == whole_below(WANTED[form], calls)
                self.counts.told(good, 'a failed write', form, calls, got)

    def failed_packed_writes(self):
        """Lets each write of packed output in turn fail. The complete output must unpack to the answers."""
        for form in 'canon', 'canon,--flat':
            output = self.asked(self.program, [line(form + ',--pack', STREAM)])[0].written
            self.counts.told(unpacked(output) == (b''.join(WANTED[form]), True), 'packed output', form, output)
            lines = [line(form + ',--pack', STREAM, ALL, f'{calls},1') for calls in range(len(output) + 1)]
            for calls, got in enumerate(self.asked(self.program, lines)):
                how = 'done' if calls == len(output) else 'unflushed'
                self.counts.told(got.how == how and got.written == output[:calls], 'a failed packed write', form, calls, got)

    def cut(self):
        """Cuts the stream short after each byte."""
        for form in self.forms:
            found = self.asked(self.program, [line(form, STREAM[:end]) for end in range(len(STREAM) + 1)])
            for end, got in enumerate(found):
                number = whole_below(MESSAGES, end)
                at_end = end == ends(MESSAGES)[number]
                how = ('done', number, holds(form, number)) if at_end else ('stopped', number, 'Truncated')
                self.counts.told((got.how, got.number, got.word) == how and is_front(form, got), 'a cut stream', form, end, got)

    def cut_packed(self):
        """Cuts the packed stream short after each byte. If the count after a word is missing, that word may be used or not."""
        data = packed(STREAM)
        for form in self.forms:
            found = self.asked(self.program, [line(form + ',--packed', data[:end]) for end in range(len(data) + 1)])
            for end, got in enumerate(found):
                given, is_whole = unpacked(data[:end])
                most = whole_below(MESSAGES, len(given))
                if is_whole and len(given) == ends(MESSAGES)[most]:
                    good = (got.how, got.number, got.word) == ('done', most, holds(form, most))
                else:
                    least = whole_below(MESSAGES, len(given) - (0 if is_whole else 8))
                    good = (got.how, got.word) == ('stopped', 'Truncated') and least <= got.number <= most
                self.counts.told(good and is_front(form, got), 'a cut packed stream', form, end, got)

    def turned(self):
        """Flips each bit of the stream, plain and packed."""
        altered, data = {}, packed(STREAM)
        for bit in range(8 * len(STREAM)):
            altered[turn(STREAM, bit)] = None
        packed_ones = [turn(data, bit) for bit in range(8 * len(data))]
        pairs = [(it, unpacked(it)) for it in packed_ones]
        parts = {given: frames(given) for given in [*altered, *(it for _, (it, _) in pairs)]}
        single = {frame: None for found, _ in parts.values() for frame in found}
        for form in self.forms:
            alone = dict(zip(single, self.asked(self.program, [line(form, it) for it in single])))
            for given, got in zip(altered, self.asked(self.program, [line(form, it) for it in altered])):
                want = expected(form, *parts[given], alone)
                self.counts.told(got == want, 'a flipped bit', form, given.hex(), want, got)
            found = self.asked(self.program, [line(form + ',--packed', it) for it, _ in pairs])
            for (_, (given, is_whole)), got in zip(pairs, found):
                want = expected(form, *parts[given], alone)
                good = got == want if is_whole else is_cut(got, want)
                self.counts.told(good, 'a flipped packed bit', form, is_whole, want, got)


def turn(data, bit):
    turned = bytearray(data)
    turned[bit // 8] ^= 1 << bit % 8
    return bytes(turned)


def frames(data):
    """The whole frames at the start of a stream, and the name of the refusal of the next one, or None at the end."""
    found = []
    while data:
        name = refusal(data)
        if name:
            return found, name
        lengths, start = table_of(data)
        end = start + 8 * sum(lengths)
        found.append(data[:end])
        data = data[end:]
    return found, None


def expected(form, found, name, alone):
    """The expected answer to a stream of these frames, from the answers to each one on its own."""
    written, word = b'', 'true'
    for number, frame in enumerate(found):
        answer = alone[frame]
        if answer.how != 'done':
            return Answer('stopped', number, answer.word, written)
        written += answer.written
        word = 'false' if answer.word == 'false' else word
    if name:
        return Answer('stopped', len(found), name, written)
    return Answer('done', len(found), word, written)


def is_cut(got, want):
    """Whether the answer to a packed stream that is cut short is right; `want` is the answer to what it unpacks to. If the count
    after a word is missing, that word may be used or not."""
    if got.how != 'stopped' or got.number > want.number or not want.written.startswith(got.written):
        return False
    return got.word == 'Truncated' or got == want


def runs(program, counts):
    """All runs, with the program stream_runs."""
    it = Runs([program], counts)
    for part in (
        it.strained, it.failed_reads, it.failed_packed_reads, it.failed_writes,
        it.failed_packed_writes, it.cut, it.cut_packed, it.turned,
    ):
        part()


def altered(program, counts):
    """The runs over altered streams, with capnp_canon; each processor makes one at a time."""
    with concurrent.futures.ThreadPoolExecutor(os.cpu_count()) as pool:
        def asked_each(_, lines):
            return list(pool.map(lambda text: asked_of_canon(program, text), lines))

        it = Runs(program, counts, [form for form in FORMS if form != 'canon,--flat'], asked_each)
        for part in it.cut, it.cut_packed, it.turned:
            part()
