#!/usr/bin/env python3
"""Makes corpus.jsonl and packed.jsonl again, and compares each answer with C++ Cap'n Proto.

    make.py [--check]

The messages are those of ../vectors, those that this script builds, and real messages by `capnp encode`. Their answers are those of
model.py. The script stops if the model and the outside answers in ../vectors differ, or if C++ answers otherwise and no rule of the
README says why. --check writes nothing, and compares what it would write with what is there. Needs `capnp`, libcapnp-dev and g++."""
import collections
import concurrent.futures
import json
import pathlib
import random
import re
import struct
import subprocess
import sys

import model
from model import CAPABILITIES, CANONICALIZATION, FARS, FRAMES, LISTS, PACKING, SECURITY, STRUCTS, WORDS
from model import Fault, Reader, Refused, Test, bytes_of, frame_of, segments_of, words_of
from run import pack, pack_frame

HERE = pathlib.Path(__file__).resolve().parent
TESTS = HERE.parent
sys.path.insert(0, str(TESTS / 'peer'))
from peer import Peer
# What the notes of ../vectors mean.
NOTES = {
    'layouts': 'a random value in a random layout', 'double fars': 'far pointers with landing pads of two words', 'fars': 'far pointers',
    'offsets': 'pointers that lead anywhere', 'empty structs': 'empty structs', 'back': 'pointers that lead back', 'chains': 'a chain of pointers',
    'mutated': 'a random value with changed bits', 'canonical': 'a canonical message', 'large': 'large sections',
    'nearly canonical': 'a canonical message with one change', 'void lists': 'lists of void', 'padding': 'lists with padding',
    'soup': 'random words', 'tags': 'tags of lists of structs', 'huge counts': 'huge counts', 'widths': 'lists of all element sizes',
    'kind 3': 'pointers of kind 3', 'zero pads': 'landing pads of zero', 'trimmed lists': 'lists of structs with zeros at the ends',
    'worked example': 'a worked example', 'arguments': 'a worked example', 'lines': 'a worked example', 'order': 'objects in any order',
    'sharing': 'objects that several pointers lead to', 'a nesting limit of 64, zeros before its digits or not': 'a worked example',
}
# The largest frame that is kept, in bytes.
LARGEST = 1500
MESSAGES_OF_VECTORS = 2680


# What a note says of the arguments of its vector, and not of the message.
OF_ARGUMENTS = re.compile(r'^a budget of one word too few for |, (just within|digits in) .*')


def described(note):
    """What the message of a vector is."""
    note = OF_ARGUMENTS.sub('', NOTES.get(note, note))
    return note.replace(' behind ', ' after ').replace(' lies outside', ' is outside').replace(' lie in', ' are in')


def counted(count, name):
    return f'{count} {name}' if count == 1 else f'{count} {name}s'


def near(kind, offset, high):
    return high << 32 | (offset & (1 << 30) - 1) << 2 | kind


def struct_to(offset, data, pointers):
    return near(0, offset, pointers << 16 | data)


def list_to(offset, size, count):
    return near(1, offset, count << 3 | size)


def far(segment, word, double=0):
    return segment << 32 | word << 3 | double << 2 | 2


def tag(count, data, pointers):
    return near(0, count, pointers << 16 | data)


def of_vectors():
    """Each message of ../vectors, once, with its note."""
    for name in 'worked', 'canon', 'framed-canon', 'check', 'size', 'heavy':
        for line in (TESTS / f'vectors/{name}.jsonl').open(encoding='utf-8'):
            vector = json.loads(line)
            try:
                segments = [bytes.fromhex(it) for it in vector['stdin'].removesuffix('\n').split('\n')]
            except ValueError:
                continue
            if vector['args'][:1] in (['canon'], ['framed-canon'], ['check'], ['size']) and vector['stdin']:
                yield described(vector.get('note', '')), frame_of([struct.unpack_from(f'<{len(it) // 8}Q', it) for it in segments])


def outside_answers():
    """Compares the model with the answers in ../vectors, at the limits that they name. Returns how many there are."""
    agreed = 0
    classes = {'CannotCreateACanonicalMessageWithACapability': 'capability', 'ReadLimitExceeded': 'limit'}
    for path in sorted((TESTS / 'vectors').glob('*.jsonl')):
        for line in path.open(encoding='utf-8'):
            vector = json.loads(line)
            args = vector['args']
            if len(args) != 3 or args[0] not in ('canon', 'check', 'framed-canon', 'framed-check') or vector['status'] == 2 or not vector['stdin']:
                continue
            lines = [bytes.fromhex(it) for it in vector['stdin'].removesuffix('\n').split('\n')]
            nesting, words = int(args[1]), None if args[2] == 'none' else int(args[2])
            try:
                if args[0] == 'framed-check':
                    segments = segments_of(lines[0], 1 << 40)
                else:
                    segments = [struct.unpack_from(f'<{len(it) // 8}Q', it) for it in lines]
                got = answer_as(args[0], segments, nesting, words)
            except Refused as refusal:
                if refusal.kind == 'frame':
                    continue
                got = f'refused {refusal.kind}'
            except RuntimeError:
                continue
            wanted = vector['stdout'].removesuffix('\n')
            if wanted.startswith('refused '):
                name = wanted.split()[1]
                wanted = f"refused {classes.get(name, 'nesting' if 'Nest' in name else 'malformed')}"
            if got != wanted:
                raise SystemExit(f'{path.name}: the model says {got:.200}, the vector {wanted:.200}')
            agreed += 1
    return agreed


def answer_as(command, segments, nesting, words):
    if 'canon' in command:
        copy = words_of(Reader(segments, nesting, words).read())
        return (frame_of([copy]) if command == 'framed-canon' else bytes_of(copy)).hex()
    whole = command == 'framed-check'
    yes, no = ('canonical message', 'not a canonical message') if whole else ('canonical', 'not canonical')
    try:
        Test(segments if whole else segments[:1], nesting, words).run()
    except Fault as fault:
        return yes if fault.why == 'WordsBehind' and not whole else no
    return yes


# ---- messages that this script builds


def lists():
    """Lists of each element size, with every padding."""
    for size, bits in enumerate(model.BITS):
        for count in (0, 1, 2, 3, 7, 8, 9, 63, 64, 65) if size < 6 else (0, 1, 3):
            words = (bits * count + 63) // 64
            if size == 6:
                yield counted(count, 'null pointer'), [[list_to(0, size, count)] + [0] * words]
                continue
            if words > 9:
                continue
            of = f"{counted(count, 'element')} of {counted(bits, 'bit')}"
            full = [0xffffffffffffffff] * words
            whole = (1 << bits * count) - 1
            exact = [whole >> 64 * i & 0xffffffffffffffff for i in range(words)]
            yield f'a list of {of}', [[list_to(0, size, count)] + exact]
            if full != exact:
                yield f'a list of {of}, with padding of ones', [[list_to(0, size, count)] + full]
                yield 'padding with its last bit set', [[list_to(0, size, count)] + exact[:-1] + [exact[-1] | 1 << 63]]
            if words:
                yield f'a list of {of}, cut short by a word', [[list_to(0, size, count)] + exact[:-1]]
    for text in b'\0', b'a\0', b'seven..\0', b'eight....\0', b'no end':
        padded = text + b'\0' * (-len(text) % 8)
        yield 'a text', [[struct_to(0, 0, 1), list_to(0, 2, len(text)), *struct.unpack(f'<{len(padded) // 8}Q', padded)]]


def structs():
    """Structs and lists of structs, with zeros and nulls at the ends of their sections."""
    for data in range(4):
        for filled in range(data + 1):
            words = [7] * filled + [0] * (data - filled)
            if data:
                of = f"{counted(data, 'data word')}, {data - filled} of them zero at the end"
                yield of, [[struct_to(0, data, 0), *words]]
                yield f'{of}, and a null pointer', [[struct_to(0, data, 1), *words, 0]]
                yield f'a list of one struct of {of}', [[list_to(0, 7, data), tag(1, data, 0), *words]]
    for pointers in range(1, 4):
        for filled in range(pointers + 1):
            row = [0xfffffffc] * filled + [0] * (pointers - filled)
            of = f"{counted(pointers, 'pointer')}, {pointers - filled} of them null at the end"
            yield of, [[struct_to(0, 0, pointers), *row]]
            yield f'a list of one struct of {of}', [[list_to(0, 7, pointers), tag(1, 0, pointers), *row]]
    for rows in ([1, 0], [0, 0]), ([1, 0], [0, 2]), ([0, 0], [0, 0]), ([0, 3], [0, 0], [0, 0]):
        words = [word for row in rows for word in row]
        yield 'structs of different lengths in a list', [[list_to(0, 7, len(words)), tag(len(rows), 2, 0), *words]]
    yield 'a null pointer before one that isn’t', [[struct_to(0, 0, 2), 0, 0xfffffffc]]
    yield 'an empty struct as root', [[0xfffffffc]]
    yield 'an empty struct that leads elsewhere', [[struct_to(0, 0, 0)]]
    yield 'a null root', [[0]]
    yield 'a null root and a word after it', [[0, 0]]
    yield 'a word after the value', [[struct_to(0, 1, 0), 1, 0]]
    yield 'a word between pointer and value', [[struct_to(1, 1, 0), 0, 1]]
    yield 'a segment without words', [[]]
    yield 'a capability', [[struct_to(0, 0, 1), 3]]
    yield 'a capability with an index', [[struct_to(0, 0, 1), 5 << 32 | 3]]
    yield 'a capability as root', [[3]]
    yield 'a capability after a null pointer at the end of an element', [[list_to(0, 7, 2), tag(1, 0, 2), 0, 3]]
    yield 'a pointer of kind 3 that isn’t a capability', [[struct_to(0, 0, 1), 7]]
    yield 'a tag that isn’t that of a struct', [[list_to(0, 7, 1), list_to(1, 2, 8), 0]]
    yield 'a tag of kind far', [[list_to(0, 7, 1), far(0, 0), 0]]
    yield 'elements that take more words than the list claims', [[list_to(0, 7, 1), tag(2, 1, 0), 1, 2]]
    yield 'a list of structs that claims more words than its elements take', [[list_to(0, 7, 3), tag(2, 1, 0), 1, 2, 0]]
    yield 'a list of structs without width that claims words', [[list_to(0, 7, 1), tag(3, 0, 0), 9]]
    yield 'a list of structs without width', [[list_to(0, 7, 0), tag(3, 0, 0)]]
    yield 'a list of no structs that have width', [[list_to(0, 7, 0), tag(0, 1, 1)]]
    yield 'a struct out of its segment', [[struct_to(0, 2, 0), 1]]
    yield 'a struct before its segment', [[struct_to(-2, 1, 0), 1]]
    yield 'an empty struct out of its segment', [[struct_to(0, 0, 1), struct_to(5, 0, 0)]]
    yield 'an empty list out of its segment', [[struct_to(0, 0, 1), list_to(9, 2, 0)]]
    yield 'an empty list at the end of its segment', [[struct_to(0, 0, 1), list_to(0, 2, 0)]]
    yield 'two pointers to one object', [[struct_to(0, 0, 2), struct_to(1, 1, 0), struct_to(0, 1, 0), 5]]
    yield 'objects in another order', [[struct_to(0, 0, 2), struct_to(2, 1, 0), struct_to(0, 1, 0), 5, 6]]
    yield 'objects in canonical order', [[struct_to(0, 0, 2), struct_to(1, 1, 0), struct_to(1, 1, 0), 5, 6]]
    yield 'two objects that overlap', [[struct_to(0, 0, 2), struct_to(1, 2, 0), struct_to(1, 2, 0), 5, 6, 7]]
    yield 'a struct that is its own child', [[struct_to(0, 0, 1), struct_to(-1, 0, 1)]]
    yield 'a list of pointers that ends in nulls', [[list_to(0, 6, 3), 0xfffffffc, 0, 0]]
    yield 'a tag with a count of 2^29 + 1', [[list_to(0, 7, 0), tag((1 << 29) + 1, 0, 0)]]
    yield 'a tag with a count of 2^29 + 1 and elements of a word', [[list_to(0, 7, 1), tag((1 << 29) + 1, 1, 0), 4]]


def fars():
    """Far pointers in every form, and broken ones."""
    body = [struct_to(0, 1, 0), 42]
    yield 'a far pointer to a landing pad before its object', [[far(1, 0)], body]
    yield 'a far pointer into its own segment', [[far(0, 1), *body]]
    yield 'a landing pad after its object', [[far(1, 1)], [42, struct_to(-2, 1, 0)]]
    yield 'a landing pad of two words', [[far(1, 0, 1)], [far(2, 0), struct_to(0, 1, 0)], [42]]
    yield 'a landing pad of two words for an object of the first segment', [[far(1, 0, 1), 42], [far(0, 1), struct_to(0, 1, 0)]]
    yield 'a landing pad of two words whose tag has an offset', [[far(1, 0, 1)], [far(2, 0), struct_to(7, 1, 0)], [42]]
    yield 'a landing pad of two words for a list of structs', [[far(1, 0, 1)], [far(2, 1), list_to(0, 7, 2)], [0, tag(2, 1, 0), 4, 5]]
    yield 'a far pointer to a pad of zero', [[far(1, 0)], [0]]
    yield 'a landing pad of two words with a tag of zero', [[far(1, 0, 1)], [far(2, 0), 0], [1]]
    yield 'a landing pad that is a far pointer', [[far(1, 0)], [far(2, 0)], body]
    yield 'a tag in a landing pad that is a far pointer', [[far(1, 0, 1)], [far(2, 0), far(2, 0)], body]
    yield 'a landing pad of two words that begins with a double far pointer', [[far(1, 0, 1)], [far(2, 0, 1), struct_to(0, 1, 0)], [42]]
    yield 'a landing pad of two words that begins with a near pointer', [[far(1, 0, 1)], [near(0, 0, 2), struct_to(0, 1, 0)], [42]]
    yield 'a landing pad out of its segment', [[far(1, 2)], body]
    yield 'a landing pad of two words of which one is out of the segment', [[far(1, 1, 1)], [0, far(0, 0)]]
    yield 'a far pointer to a segment that isn’t there', [[far(2, 0)], body]
    yield 'a landing pad of two words to a segment that isn’t there', [[far(1, 0, 1)], [far(3, 0), struct_to(0, 1, 0)]]
    yield 'a landing pad to an object out of its segment', [[far(1, 0)], [struct_to(0, 2, 0), 1]]
    yield 'a landing pad of two words to an object out of its segment', [[far(1, 0, 1)], [far(2, 0), struct_to(0, 2, 0)], [1]]
    yield 'a landing pad of two words to an empty struct out of its segment', [[far(1, 0, 1)], [far(2, 9), struct_to(0, 0, 0)], [1]]
    yield 'a landing pad of two words to a segment without words', [[far(1, 0, 1)], [far(2, 0), struct_to(0, 0, 0)], []]
    yield 'a capability after a far pointer', [[struct_to(0, 0, 1), far(1, 0)], [3]]
    yield 'a capability in a landing pad of two words', [[struct_to(0, 0, 1), far(1, 0, 1)], [far(0, 0), 3]]
    yield 'a near pointer, and a segment that nothing leads to', [body, [1]]
    yield 'a canonical first segment, and a segment without words', [body, []]
    yield 'a first segment without words', [[], body]
    children = [struct_to(0, 0, 3), far(1, 0), far(2, 0, 1), far(1, 3)]
    yield 'three children in other segments', [children, [list_to(0, 2, 3), 0x616263, 9, struct_to(0, 0, 1), far(3, 0)], [far(3, 2), list_to(0, 5, 1)], [struct_to(0, 1, 0), 8, 6]]
    for count in 2, 3, 16, 64, 511, 512:
        yield f'{count} segments', [[far(count - 1, 0)], *[[]] * (count - 2), body]


def limits():
    """Messages at the limits, and just beyond."""
    kinds = {
        'structs': lambda left: [struct_to(0, 0, 1)],
        'lists of one pointer': lambda left: [list_to(0, 6, 1)],
        'lists of one struct': lambda left: [list_to(0, 7, 1), tag(1, 0, 1)],
    }
    for name, link in kinds.items():
        for levels in 31, 32, 33, 63, 64, 65:
            for end, row in ('a null', [0]), ('an empty struct', [0xfffffffc]):
                words = [word for i in range(levels) for word in link(i)] + row
                yield f'{name}, {levels} levels deep, with {end} inside', [words]
    for levels in 63, 64, 65:
        yield f'structs in {levels} segments, one inside another', [[far(i + 1, 0)] if i == 0 else [struct_to(0, 0, 1), far(i + 1, 0) if i < levels else 0] for i in range(levels + 1)]
    yield 'a struct that leads to itself', [[struct_to(-1, 0, 1)]]
    yield 'a list that leads to itself', [[list_to(-1, 6, 1)]]
    for count in 1000, WORDS - 3, WORDS - 2, WORDS - 1, WORDS, (1 << 29) - 1:
        yield f'a list of {count} voids', [[list_to(0, 0, count)]]
        yield f'a list of {count} structs without width', [[list_to(0, 7, 0), tag(count, 0, 0)]]
    for times in 7, 8, 9:
        yield f'{times} pointers to lists of 2^20 voids', [[list_to(0, 6, times), *[list_to(0, 0, 1 << 20)] * times]]
    for deep in 10, 30, 64:
        yield f'{deep} structs, each with two pointers to the next', [[struct_to(0, 0, 2)] + [it for _ in range(deep - 1) for it in (struct_to(1, 0, 2), struct_to(0, 0, 2))] + [0, 0]]


def frames():
    """Frames with a table that is wrong or cut short."""
    whole = frame_of([[far(1, 0)], [struct_to(0, 1, 0), 42]])
    yield 'no bytes', b''
    for size in 1, 2, 3, 4, 7, 8, 12, 15, 16, 17, 24, 31, 32, 39:
        yield f"a frame that is cut after {counted(size, 'byte')}", whole[:size]
    yield 'a table whose padding isn’t zero', whole[:12] + b'\xff' * 4 + whole[16:]
    for count in 512, 513, 0xffffffff:
        yield f'a table that begins with {count}', struct.pack('<I', count) + bytes(4096)
    yield 'a table that says 2^32 segments', struct.pack('<II', 0xffffffff, 0)
    yield 'a segment of 2^32 - 1 words', struct.pack('<IIQ', 0, 0xffffffff, 0)
    yield 'segments that have 2^32 words together', struct.pack('<IIIIQ', 1, 0x80000000, 0x80000000, 0, 0)
    yield '513 segments', frame_of([[far(512, 0)], *[[]] * 511, [struct_to(0, 1, 0), 42]])


def real(peer):
    """Real messages by `capnp encode`, and the same in many segments by C++."""
    for seed, deep in (701, 0), (702, 0), (703, 1), (704, 1), (705, 2):
        people = peer.people(seed, 14, deep)
        for what, data in ('a person, by capnp encode', people), ('a person, in many segments', peer.scattered(people)):
            for frame in split(data):
                yield what, frame


def split(stream):
    at = 0
    while at < len(stream):
        count = int.from_bytes(stream[at:at + 4], 'little') + 1
        size = (4 + 4 * count + 7) // 8 * 8 + 8 * sum(struct.unpack_from(f'<{count}I', stream, at + 4))
        yield stream[at:at + size]
        at += size


# ---- answers


def answered(frame):
    """The fields of a line except for its number and name."""
    line = {'frame': frame.hex()}
    may, may_check = {}, {}
    seen, section = set(), FRAMES
    segments = copy = None
    try:
        segments = segments_of(frame)
        reader = Reader(segments)
        seen = reader.seen
        copy = words_of(reader.read())
        section = FARS if 'far' in seen else CANONICALIZATION if [tuple(copy)] != segments else LISTS if 'list' in seen else STRUCTS
        line |= {'canonical': bytes_of(copy).hex()}
    except Refused as refusal:
        section = refusal.section
        line |= {'canonical': None, 'class': refusal.kind}
    if segments is not None:
        line |= tested(segments)
        rules_of(segments, copy, seen, may, may_check)
    else:
        line |= {'is_canonical': False}
        if not frame:
            may['no message'], may_check['no message'] = '', True
        if len(frame) >= 4 and 512 <= int.from_bytes(frame[:4], 'little') < 4096:
            many_segments(frame, may)
    if may:
        line |= {'may': may}
    if may_check:
        line |= {'may_check': may_check}
    return section, line, seen


def tested(segments):
    test = Test(segments)
    try:
        test.run()
        return {'is_canonical': True}
    except Fault as fault:
        return {'is_canonical': False, 'fault': [fault.segment, fault.word, fault.why]}
    except Refused:
        return {'is_canonical': False}


def succeeds(run):
    try:
        run()
        return True
    except (Refused, Fault):
        return False


def rules_of(segments, copy, seen, may, may_check):
    """The places where implementations differ by right; the README has the rules."""
    root = segments[0][0] if segments and segments[0] else None
    if copy is not None:
        if root == 0:
            may['null root'] = 'fcffffff00000000'
        elif copy[0] & 3 == 1:
            may['list as root'] = None
        if 'pad kind' in seen:
            may['kind of a pad'] = None
        if 'empty segment' in seen:
            may['empty segment'] = None
        if 'tag of 30 bits' in seen:
            may['tag of 30 bits'] = None
        if not succeeds(Reader(segments, element_levels=1).read):
            may['levels of elements'] = None
        if not succeeds(Reader(segments, words=WORDS - 8).read):
            may['exact limit'] = None
        if len(segments) == 512:
            may['number of segments'] = None
    else:
        try:
            words = words_of(Reader(segments, words=2 * WORDS).read())
            may['exact limit'] = bytes_of(words).hex()
        except (Refused, RuntimeError):
            pass
    if succeeds(Test(segments).run):
        if not succeeds(Test(segments, element_levels=1).run):
            may_check['levels of elements'] = False
        if not succeeds(Test(segments, words=WORDS - 8).run):
            may_check['exact limit'] = False
        if root is not None and copy is not None and (root == 0 or copy[0] & 3 == 1):
            may_check['null root' if root == 0 else 'list as root'] = False
    elif len(segments) > 1 and not segments[1] and succeeds(Test(segments[:1]).run):
        may_check['empty segment'] = True


def many_segments(frame, may):
    count = int.from_bytes(frame[:4], 'little') + 1
    at = (4 + 4 * count + 7) // 8 * 8
    if len(frame) < at:
        return
    sizes, segments = struct.unpack_from(f'<{count}I', frame, 4), []
    for size in sizes:
        segments.append(struct.unpack_from(f'<{size}Q', frame, at))
        at += 8 * size
    try:
        may['number of segments'] = bytes_of(words_of(Reader(segments).read())).hex()
    except Refused:
        pass


class Outside:
    """C++ Cap'n Proto by example.c++."""

    def __init__(self, peer):
        self.program = peer.example()

    def answers(self, data, *words):
        """The canonical words, or none; and whether the message is canonical."""
        copy = subprocess.run([self.program, 'words', *words], input=data, stdout=subprocess.PIPE, stderr=subprocess.DEVNULL)
        test = subprocess.run([self.program, 'check', *words], input=data, stdout=subprocess.DEVNULL, stderr=subprocess.DEVNULL)
        return copy.stdout.hex() if copy.returncode == 0 else None, test.returncode == 0


def compared(line, seen, theirs):
    """Adds what C++ answers to a line if a rule allows it. Returns what no rule explains."""
    words, is_canonical = theirs
    may, may_check = line.setdefault('may', {}), line.setdefault('may_check', {})
    # whose answers are C++'s own
    rule = next((it for it in ('empty object outside', 'tag of 30 bits') if it in seen), None)
    if words != line['canonical'] and words not in may.values():
        if rule is None or (line['canonical'] is not None and rule != 'tag of 30 bits'):
            return 'words'
        may[rule] = words
    if is_canonical != line['is_canonical'] and is_canonical not in may_check.values():
        if rule is None:
            return 'test'
        may_check[rule] = is_canonical
    for name in 'may', 'may_check':
        if not line[name]:
            del line[name]
    return None


def gathered(peer):
    """All frames, each once, with what they are."""
    kept = {}
    built = [(what, frame_of(segments)) for make in (structs, lists, fars, limits) for what, segments in make()]
    for what, frame in [*built, *frames(), *real(peer)]:
        if len(frame) <= 5000:
            kept.setdefault(frame, what)
    own = len(kept)
    more = {}
    for what, frame in of_vectors():
        if frame not in kept and len(frame) <= LARGEST:
            more.setdefault(frame, what)
    chosen = set(random.Random(1).sample(sorted(more), min(len(more), MESSAGES_OF_VECTORS)))
    kept.update((frame, what) for frame, what in more.items() if frame in chosen)
    return own, kept


# ---- packed messages


def packings():
    """Packed bytes, each with what they are and the bytes that they stand for, or none if they are malformed."""
    small = frame_of([[struct_to(0, 1, 1), 42, list_to(0, 2, 3), 0x616263]])
    yield 'a small message', pack(small), small
    zeros = frame_of([[struct_to(0, 20, 0), *[0] * 19, 1]])
    yield 'a run of 18 zero words', pack(zeros), zeros
    yield 'zero words, each by itself', pack(zeros, longest=0), zeros
    yield 'zero words in runs of two', pack(zeros, longest=1), zeros
    dense = frame_of([[list_to(0, 2, 80), *[0x0102030405060708 + i for i in range(10)]]])
    yield 'a run of words without zeros', pack(dense), dense
    yield 'words without zeros, each by itself', pack(dense, longest=0), dense
    yield 'a run of words that includes words with zeros', pack_literally(zeros), zeros
    for words in 1, 2, 255, 256, 257, 300:
        many = frame_of([[list_to(0, 5, words + 1), *[0] * words, 1]])
        yield counted(words, 'zero word'), pack(many), many
        many = frame_of([[list_to(0, 5, words), *[0xffffffffffffffff] * words]])
        if words <= 2:
            yield f"{counted(words, 'word')} of ones", pack(many), many
    yield 'a tag that names bytes that are zero', b'\xff' + small[:8] + b'\x00' + b''.join(b'\xff' + small[at:at + 8] + b'\x00' for at in range(8, len(small), 8)), small
    whole = pack(small)
    for size in range(0, len(whole)):
        yield f"packed bytes that are cut after {counted(size, 'byte')}", whole[:size], None
    yield 'a tag of zero without its count', pack(zeros)[:pack(zeros).rindex(b'\x00') + 0], None
    two = frame_of([[far(1, 0), 0], [struct_to(0, 1, 0), 42]])
    yield 'two segments', pack_frame(two), two
    ends = frame_of([[struct_to(0, 2, 0), 1, 0], [0, 0]])
    yield 'a run of zero words within the segments', pack_frame(ends), ends
    yield 'a run of zero words that continues past the end of a segment', pack(ends), ends
    ones = frame_of([[list_to(0, 5, 2), *[0xffffffffffffffff] * 2], [0xffffffffffffffff] * 2])
    yield 'a run of words that continues past the end of a segment', pack(ones), ones
    table = frame_of([[0, 0], []])
    yield 'a run of zero words that continues past the end of the table', pack(table), table
    for what, segments in [*list(fars())[:12], *list(structs())[:60:3], *list(lists())[:60:4]]:
        frame = frame_of(segments)
        yield what, pack_frame(frame), frame


def pack_literally(data):
    """All words after the first as one literal run."""
    first = pack(data[:8], longest=0)
    rest = data[8:]
    # the tag 0xff, its word, and the count of the words that follow it
    return first + b'\xff' + rest[:8] + bytes([len(rest) // 8 - 1]) + rest[8:]


def packed_lines(outside):
    lines = []
    for what, packed, frame in packings():
        if frame is None:
            line, seen = {'canonical': None, 'class': 'packed', 'is_canonical': False}, set()
            if not packed:
                line |= {'may': {'no message': ''}, 'may_check': {'no message': True}}
        else:
            _, line, seen = answered(frame)
            del line['frame']
            if 'past' in what:
                line.setdefault('may', {})['run past an end'] = None
                if line['is_canonical']:
                    line.setdefault('may_check', {})['run past an end'] = False
        line = {'section': PACKING, 'what': what, 'packed': packed.hex(), **line}
        theirs = outside.answers(packed, 'packed')
        if frame is None and theirs[0] is not None:
            raise SystemExit(f'C++ reads {what}: {packed.hex()}')
        problem = compared(line, seen, theirs)
        if problem:
            raise SystemExit(f'C++ answers otherwise ({problem}): {line}: {theirs}')
        lines.append(line)
    return lines


def main():
    sys.setrecursionlimit(100000)
    print(f'{outside_answers():,} answers of the vectors are the model’s')
    lines, unexplained, counts = [], 0, collections.Counter()
    with Peer() as peer, concurrent.futures.ThreadPoolExecutor(2) as pool:
        own, frames_of = gathered(peer)
        outside = Outside(peer)
        for (frame, what), theirs in zip(frames_of.items(), pool.map(outside.answers, frames_of)):
            try:
                section, line, seen = answered(frame)
            except RuntimeError:
                counts['takes too long'] += 1
                continue
            problem = compared(line, seen, theirs)
            if problem:
                unexplained += 1
                print(f'no rule explains what C++ answers ({problem}): {what}: {json.dumps(line):.700}: {theirs}')
            counts[line.get('class', 'value')] += 1
            lines.append({'section': section, 'what': what, **line})
        lines.sort(key=lambda it: it['section'])
        packed = packed_lines(outside)
    print(f'{own} of {len(lines)} are built here or by capnp encode; {dict(counts)}; packed {len(packed)}')
    if unexplained:
        return 1
    status = 0
    for name, rows in ('corpus', lines), ('packed', packed):
        text = ''.join(json.dumps({'id': number, **row}, separators=(',', ':'), ensure_ascii=False) + '\n' for number, row in enumerate(rows, 1))
        path = HERE / f'{name}.jsonl'
        if sys.argv[1:] == ['--check']:
            if path.read_text(encoding='utf-8') != text:
                print(f'{path.name} isn’t what this script makes')
                status = 1
        else:
            path.write_text(text, encoding='utf-8')
            print(f'{path.name}: {len(rows):,} lines, {len(text.encode()):,} bytes')
    return status


if __name__ == '__main__':
    sys.exit(main())
