"""What `capnp_canon show` writes, by a model that is written from docs/PROGRAM.md and docs/FORMAT.md and shares no code with
the program. Makes messages with faults from those of tests/corpus, by fixed seeds, runs the program on them, and compares.

    shown.py CAPNP_CANON            the same, as a part of run.py
    shown.py --rows FILE            writes cases for run.py: messages of tests/corpus with what the model shows of them"""
import json
import pathlib
import random
import struct
import sys

HERE = pathlib.Path(__file__).resolve().parent
CORPUS = HERE.parent / 'corpus/corpus.jsonl'
MOST_ELEMENTS, MOST_TEXT, MOST_BYTES = 64, 1024, 67_108_864
NESTING, WORDS, DEPTH = 64, 8_388_608, 64
BITS = 0, 1, 8, 16, 32, 64
KINDS = 'void', 'bits', 'bytes', 'u16', 'u32', 'u64'
ESCAPES = {'"': '\\"', '\\': '\\\\', '\t': '\\t', '\n': '\\n', '\r': '\\r'}
# The control sequences of the parts of a line, and of their end.
COLORS = {'path': '\x1b[1m', 'place': '\x1b[2m', 'text': '\x1b[32m', 'refusal': '\x1b[31m', 'cut': '\x1b[33m'}
PLAIN = '\x1b[0m'
# How often each message is altered, and the options of the runs.
MUTATIONS, OPTIONS = 1000, ([], ['--json'], ['--values'], ['--json', '--values'], ['--depth', '1'], ['--depth=0', '--json'], ['--words', '9'], ['--nesting', '2'],
                            ['--at', '0'], ['--json', '--at', '[0]'], ['--at=1.0', '--values'], ['--json', '--values', '--at', '0.[1].0'], ['--json', '--at', '0.[0]'], ['--color'],
                            ['--color', '--values', '--depth', '1'], ['--color', '--at', '0', '--words', '20'])


class Refused(Exception):
    pass


def start_of(frame):
    """Where the words of a frame start."""
    return (4 * (int.from_bytes(frame[:4], 'little') + 2) + 7) // 8 * 8


def sizes_of(frame):
    return struct.unpack_from(f'<{int.from_bytes(frame[:4], "little") + 1}I', frame, 4)


def segments_of(frame):
    at, segments = start_of(frame), []
    for size in sizes_of(frame):
        segments.append(struct.unpack_from(f'<{size}Q', frame, at))
        at += 8 * size
    return segments


class Model:
    """Reads objects of a message in the steps of "Charges and refusals"."""

    def __init__(self, segments, nesting, words):
        self.segments, self.nesting, self.left = segments, nesting, words
        self.sound = True

    def charge(self, words):
        if self.left < words:
            raise Refused('ReadLimitExceeded')
        self.left -= words

    def segment(self, number):
        if number >= len(self.segments):
            raise Refused('InvalidSegmentId')
        return self.segments[number]

    def leads(self, number, at, word):
        """Where an offset leads, in its segment."""
        offset = word >> 2 & 0x3fffffff
        start = at + 1 + (offset - (1 << 30) if offset >> 29 else offset)
        if not 0 <= start <= len(self.segments[number]):
            raise Refused('MessageContainsOutOfBoundsPointer')
        return number, start

    def follow(self, number, at):
        """The word that describes the object, and where the object starts."""
        word = self.segments[number][at]
        if word & 3 != 2:
            return word, *self.leads(number, at, word)
        far, pad, double = word >> 32, word >> 3 & 0x1fffffff, word >> 2 & 1
        if pad + 1 + double > len(self.segment(far)):
            raise Refused('MessageContainsOutOfBoundsPointer')
        self.charge(1 + double)
        first = self.segments[far][pad]
        if not double:
            return first, *self.leads(far, pad, first)
        self.segment(first >> 32)
        return self.segments[far][pad + 1], first >> 32, first >> 3 & 0x1fffffff

    def read(self, number, at, level):
        """The object of a pointer that isn't null, as a tuple."""
        word, number, start = self.follow(number, at)
        kind = word & 3
        if kind == 2:
            raise Refused('MalformedDoubleFarPointer')
        if kind == 3:
            if word & 0xffffffff != 3:
                raise Refused('UnknownPointerType')
            return 'capability', word >> 32
        size, count = word >> 32 & 7, word >> 35
        data, pointers = word >> 32 & 0xffff, word >> 48
        if kind == 0:
            claim = data + pointers
        else:
            claim = count if size == 6 else count + 1 if size == 7 else -(-count * BITS[size] // 64)
        if level < 1:
            raise Refused('MessageIsTooDeeplyNestedOrContainsCycles')
        if start + claim > len(self.segments[number]):
            raise Refused('MessageContainsOutOfBoundsPointer')
        self.charge(claim)
        if kind == 0:
            return 'struct', number, start, data, pointers
        if size == 6:
            return 'pointers', number, start, count
        if size < 6:
            if size == 0:
                self.charge(count)
            return 'flat', number, start, size, count
        tag = self.segments[number][start]
        if tag & 3:
            raise Refused('InlineCompositeListsOfNonStructTypeAreNotSupported')
        elements, data, pointers = tag >> 2 & 0x3fffffff, tag >> 32 & 0xffff, tag >> 48
        if elements * (data + pointers) > count:
            raise Refused('InlineCompositeListsElementsOverrunItsWordCount')
        if data + pointers == 0:
            self.charge(elements)
        return 'structs', number, start + 1, data, pointers, elements

    def at_end(self, path):
        """Reads the root pointer, follows a path of indexes from there, and returns what is at its end: the place of a pointer,
        or of an element of a list of structs, and the level there; and of an element its sizes, otherwise None."""
        if not self.segments[0]:
            raise Refused('MessageContainsOutOfBoundsPointer')
        self.charge(1)
        number, at, level = 0, 0, self.nesting
        # the sizes of the element of a list of structs that the path is at, which starts at `at`
        element = None
        for index in path:
            if element:
                first, count = at + element[0], element[1]
                element = None
            else:
                kind, *it = self.read(number, at, level) if self.segments[number][at] else ['null']
                level -= 1
                if kind == 'struct':
                    number, first, data, count = it
                    first += data
                elif kind == 'pointers':
                    number, first, count = it
                elif kind == 'structs':
                    number, first, data, pointers, elements = it
                    if index >= elements:
                        raise Refused('NoSuchPlace')
                    at, element = first + index * (data + pointers), (data, pointers)
                    continue
                else:
                    raise Refused('NoSuchPlace')
            if index >= count:
                raise Refused('NoSuchPlace')
            at = first + index
        return number, at, level, element

    def words(self, number, start, count):
        return self.segments[number][start:start + count]

    def elements(self, number, start, size, count):
        """The elements of a list of numbers: bytes, or a list."""
        words = self.words(number, start, -(-count * BITS[size] // 64))
        data = struct.pack(f'<{len(words)}Q', *words)
        if size == 1:
            return [data[i // 8] >> i % 8 & 1 for i in range(count)]
        width = BITS[size] // 8
        return data[:count] if size == 2 else [int.from_bytes(data[i * width:(i + 1) * width], 'little') for i in range(count)]


def text_of(data):
    """The text that bytes read as, or None."""
    if not data.endswith(b'\0'):
        return None
    try:
        text = data[:-1].decode()
    except UnicodeDecodeError:
        return None
    return None if any((ord(it) < 32 or 127 <= ord(it) < 160) and it not in '\t\n\r' for it in text) else text


def quoted(text):
    return '"' + ''.join(ESCAPES.get(it, it) for it in text) + '"'


def front(text):
    """The first characters that take at most MOST_TEXT bytes."""
    found = text.encode()[:MOST_TEXT]
    while True:
        try:
            return found.decode()
        except UnicodeDecodeError:
            found = found[:-1]


class Lines(Model):
    def __init__(self, segments, places, depth, colors, **limits):
        super().__init__(segments, **limits)
        self.places, self.depth, self.colors, self.lines = places, depth, colors, []

    def colored(self, part, text):
        return f'{COLORS[part]}{text}{PLAIN}' if self.colors else text

    def place(self, number, word):
        return self.colored('place', f'[{number}:{word}]')

    def path(self, path):
        return self.colored('path', path or 'root')

    def dots(self, more):
        return ' ' + self.colored('cut', '..') if more else ''

    def message(self, number, path):
        words, front = sum(map(len, self.segments)), '.'.join(map(str, path))
        self.lines.append(f'message {number}' + (f': segments {len(self.segments)}, words {words}' if self.places else ''))
        try:
            *end, element = self.at_end(path)
        except Refused as refused:
            self.refuse(self.path(front), refused)
        else:
            if element:
                self.struct(self.path(front), front, end[2], self.depth, *end[:2], *element)
            else:
                self.pointer(front, *end, self.depth)
        return '\n'.join(self.lines) + '\n'

    def refuse(self, front, refused):
        self.sound = False
        self.lines.append(f'{front} ' + self.colored('refusal', f'refused {refused}'))

    def at(self, number, word):
        return f' at {self.place(number, word)}' if self.places else ''

    def pointer(self, path, number, at, level, depth):
        front, word = self.path(path), self.segments[number][at]
        if self.places:
            front += f' {self.place(number, at)}'
            if word & 3 == 2:
                front += (' double' if word & 4 else '') + f' far {self.place(word >> 32, word >> 3 & 0x1fffffff)}'
        if word == 0:
            self.lines.append(f'{front} null')
            return
        try:
            kind, *it = self.read(number, at, level)
        except Refused as refused:
            self.refuse(front, refused)
            return
        getattr(self, kind)(front, path, level - 1, depth, *it)

    def capability(self, front, path, level, depth, index):
        self.lines.append(f'{front} capability {index}')

    def struct_line(self, front, number, start, data, pointers):
        words = self.words(number, start, data)
        shown = ''.join(f' {it:#x}' for it in words[:MOST_ELEMENTS])
        more = self.dots(data > MOST_ELEMENTS)
        self.lines.append(f'{front} struct{self.at(number, start)}, data {data}, pointers {pointers}' + (':' if data else '') + shown + more)

    def struct(self, front, path, level, depth, number, start, data, pointers):
        self.struct_line(front, number, start, data, pointers)
        if pointers and self.goes_on(path, depth):
            self.struct_pointers(path, number, start + data, pointers, level, depth - 1)

    def struct_pointers(self, path, number, start, count, level, depth):
        for i in range(count):
            if self.segments[number][start + i]:
                self.pointer(f'{path}.{i}'.lstrip('.'), number, start + i, level, depth)

    def goes_on(self, path, depth):
        if depth == 0:
            self.lines.append(f'{self.path(path)} ' + self.colored('cut', f'cut at depth {self.depth}'))
        return depth > 0

    def end_of_list(self, path, count):
        if count > MOST_ELEMENTS:
            self.lines.append(f'{self.path(path)} ' + self.colored('cut', f'cut after {MOST_ELEMENTS} elements'))

    def flat(self, front, path, level, depth, number, start, size, count):
        line = f'{front} {KINDS[size]} {count}{self.at(number, start)}'
        if size and count:
            found = self.elements(number, start, size, count)
            more = self.dots(count > MOST_ELEMENTS)
            text = text_of(found) if size == 2 else None
            if text is not None:
                front_of = quoted(globals()['front'](text))
                shown, more = self.colored('text', front_of), self.dots(front_of != quoted(text))
            elif size == 2:
                shown = found[:MOST_ELEMENTS].hex()
            else:
                shown = ' '.join(map(str, found[:MOST_ELEMENTS]))
            line += f': {shown}{more}'
        self.lines.append(line)

    def pointers(self, front, path, level, depth, number, start, count):
        self.lines.append(f'{front} pointers {count}{self.at(number, start)}')
        if count and self.goes_on(path, depth):
            for i in range(min(count, MOST_ELEMENTS)):
                if self.segments[number][start + i]:
                    self.pointer(f'{path}.[{i}]'.lstrip('.'), number, start + i, level, depth - 1)
            self.end_of_list(path, count)

    def structs(self, front, path, level, depth, number, start, data, pointers, count):
        self.lines.append(f'{front} structs {count}{self.at(number, start)}, data {data}, pointers {pointers}')
        if count and data + pointers and self.goes_on(path, depth):
            for i in range(min(count, MOST_ELEMENTS)):
                element, at = f'{path}.[{i}]'.lstrip('.'), start + i * (data + pointers)
                self.struct_line(self.path(element), number, at, data, pointers)
                self.struct_pointers(element, number, at + data, pointers, level, depth - 1)
            self.end_of_list(path, count)


class Json(Model):
    def __init__(self, segments, places, depth, **limits):
        super().__init__(segments, **limits)
        self.places, self.depth = places, depth

    def message(self, number, path):
        try:
            *end, element = self.at_end(path)
        except Refused as refused:
            root = self.refuse(refused)
        else:
            if element:
                root = {'at': end[:2]} if self.places else {}
                root |= self.struct(end[2], self.depth, *end[:2], *element)
            else:
                root = self.pointer(*end, self.depth)
        if self.places:
            root = {'message': number, 'segments': len(self.segments), 'words': sum(map(len, self.segments)), 'root': root}
        return json.dumps(root, separators=(',', ':'), ensure_ascii=False) + '\n'

    def refuse(self, refused):
        self.sound = False
        return {'refused': str(refused)}

    def pointer(self, number, at, level, depth):
        word = self.segments[number][at]
        if word == 0:
            return None
        found = {}
        if self.places:
            found['pointer'] = [number, at]
            if word & 3 == 2:
                found['double_far' if word & 4 else 'far'] = [word >> 32, word >> 3 & 0x1fffffff]
        try:
            kind, *it = self.read(number, at, level)
        except Refused as refused:
            return found | self.refuse(refused)
        if kind == 'capability':
            return found | {'capability': it[0]}
        if self.places:
            found['at'] = it[:2]
        return found | getattr(self, kind)(level - 1, depth, *it)

    def many(self, key, number, start, count, level, depth):
        if count and depth == 0:
            return {'cut': 'depth'}
        return {key: [self.pointer(number, start + i, level, depth - 1) for i in range(count)]}

    def struct(self, level, depth, number, start, data, pointers):
        words = self.words(number, start, data)
        return {'data': struct.pack(f'<{data}Q', *words).hex()} | self.many('pointers', number, start + data, pointers, level, depth)

    def pointers(self, level, depth, number, start, count):
        return self.many('list', number, start, count, level, depth)

    def structs(self, level, depth, number, start, data, pointers, count):
        if data + pointers == 0:
            return {'data_words': 0, 'pointer_count': 0, 'count': count}
        elements = [self.struct(level, depth, number, start + i * (data + pointers), data, pointers) for i in range(count)]
        return {'data_words': data, 'pointer_count': pointers, 'structs': elements}

    def flat(self, level, depth, number, start, size, count):
        if size == 0:
            return {'void': count}
        found = self.elements(number, start, size, count)
        if size == 2:
            text = text_of(found)
            return {'bytes': found.hex()} if text is None else {'text': text}
        return {KINDS[size]: [str(it) for it in found] if size == 5 else found}


def shown(frame, args, number=1):
    """The text of a message, and whether each pointer could be read."""
    values = dict(it.split('=') if '=' in it else (it, following) for it, following in zip(args, [*args[1:], '']))
    limits = {'nesting': int(values.get('--nesting', NESTING)), 'words': int(values.get('--words', WORDS))}
    if '--json' not in values:
        limits['colors'] = '--color' in values
    kind = Json if '--json' in values else Lines
    model = kind(segments_of(frame), '--values' not in values, int(values.get('--depth', DEPTH)), **limits)
    path = [int(it.strip('[]')) for it in values['--at'].split('.')] if '--at' in values else []
    text = model.message(number, path)
    return text, model.sound


def frames():
    for line in CORPUS.open(encoding='utf-8'):
        frame = bytes.fromhex(json.loads(line)['frame'])
        if start_of(frame) < len(frame) < 4000 and len(sizes_of(frame)) <= 512 and len(frame) == start_of(frame) + 8 * sum(sizes_of(frame)):
            yield frame


def altered(rng, frame):
    """A message with a few changed bits or words; its table stays."""
    start, found = start_of(frame), bytearray(frame)
    for _ in range(rng.choice((1, 1, 2, 4))):
        at = rng.randrange(start, len(found))
        if rng.random() < 0.5:
            found[at] ^= 1 << rng.randrange(8)
        else:
            other = rng.randrange(start, len(found), 8)
            at -= (at - start) % 8
            found[at:at + 8] = found[other:other + 8]
    return bytes(found)


def mutations():
    rng, all_frames = random.Random(85), list(frames())
    for _ in range(MUTATIONS):
        yield altered(rng, rng.choice(all_frames))


def runs(program, counts):
    """Shows the altered messages one after the other, with each of the options, and then each alone."""
    messages = list(mutations())
    for args in OPTIONS:
        # a frame with more words than the limit isn't read
        most = int(args[args.index('--words') + 1]) if '--words' in args else WORDS
        fitting = [it for it in messages if sum(sizes_of(it)) <= most]
        expected = [shown(it, args, number) for number, it in enumerate(fitting, 1)]
        wanted = ''.join(text for text, _ in expected).encode(), 0 if all(sound for _, sound in expected) else 1, ''
        got = program.run(['show', *args], b''.join(fitting))
        counts.told(got == wanted, f'show {args}', first_difference(wanted[0], got[0]), got[1:])
        counts.told(all(len(text.encode()) <= MOST_BYTES for text, _ in expected), f'the bound of show {args}')
        if '--json' in args:
            counts.told(all(json.loads(line) is None or True for line in got[0].splitlines()), 'JSON', args)


def first_difference(wanted, got):
    for line, (a, b) in enumerate(zip(wanted.split(b'\n'), got.split(b'\n')), 1):
        if a != b:
            return f'line {line}: wanted {a!r}, got {b!r}'
    return f'{len(wanted)} and {len(got)} bytes'


def rows(path):
    rng, found = random.Random(4), list(frames())
    chosen = [it for at, it in enumerate(found) if at % 40 == 0] + [altered(rng, it) for it in rng.sample(found, 40)]
    with open(path, 'w', encoding='utf-8') as file:
        for number, frame in enumerate(chosen):
            args = OPTIONS[number % 6]
            text, sound = shown(frame, args)
            case = {'name': f'a message of the corpus, {"unchanged" if number * 40 < len(found) else "altered"}', 'args': ['show', *args], 'input': frame.hex(),
                    'output': text.encode().hex(), 'stderr': '', 'status': 0 if sound else 1}
            file.write(json.dumps(case) + '\n')


def main():
    if sys.argv[1] == '--rows':
        rows(sys.argv[2])
        return 0
    sys.path.append(str(HERE.parent / 'hostile'))
    from program import Counts
    from runs import Program
    counts = Counts(10)
    runs(Program(sys.argv[1], 120), counts)
    print(f'{counts.passed} passed, {counts.failed} failed')
    return 1 if counts.failed else 0


if __name__ == '__main__':
    sys.exit(main())
