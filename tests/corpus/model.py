"""A model of canonical form, written from the encoding specification; it shares no code with the library.

`read` returns what the root of a message means, or raises `Refused`. `words_of` returns the canonical words of a value, `fault_of`
where a message stops being canonical. Both limits are counted as the Rust crate `capnp` counts them. `Seen` collects what a message
has that implementations treat differently."""
import struct

NESTING, WORDS = 64, 8388608
# The most pointers that reading a message of the corpus may follow.
MOST_READS = 300_000
BITS = 0, 1, 8, 16, 32, 64, 64
NULL = None
# The sections of the encoding specification.
FRAMES, STRUCTS, LISTS, FARS = 'Serialization Over a Stream', 'Structs', 'Lists', 'Inter-Segment Pointers'
CAPABILITIES, CANONICALIZATION, SECURITY = 'Capabilities (Interfaces)', 'Canonicalization', 'Security Considerations'
PACKING = 'Packing'


class Refused(Exception):
    """A refusal: its class, and the section of the specification."""

    def __init__(self, kind, section):
        super().__init__(kind)
        self.kind, self.section = kind, section


class Fault(Exception):
    """A message isn't canonical: why, and the word of segment 0."""

    def __init__(self, why, word, segment=0):
        super().__init__(why)
        self.why, self.segment, self.word = why, segment, word


def segments_of(frame, limit=WORDS):
    """The segments of a frame, each a tuple of words ("Serialization Over a Stream")."""
    if len(frame) < 4:
        raise Refused('frame', FRAMES)
    count = int.from_bytes(frame[:4], 'little') + 1
    if count > 512:
        raise Refused('frame', FRAMES)
    at = (4 + 4 * count + 7) // 8 * 8
    if len(frame) < at:
        raise Refused('frame', FRAMES)
    sizes = struct.unpack_from(f'<{count}I', frame, 4)
    if sum(sizes) > limit or len(frame) < at + 8 * sum(sizes):
        raise Refused('frame', FRAMES)
    segments = []
    for size in sizes:
        segments.append(struct.unpack_from(f'<{size}Q', frame, at))
        at += 8 * size
    return segments


def frame_of(segments):
    table = struct.pack(f'<I{len(segments)}I', len(segments) - 1, *map(len, segments))
    return table + b'\0' * (-len(table) % 8) + b''.join(map(bytes_of, segments))


def bytes_of(words):
    return struct.pack(f'<{len(words)}Q', *words)


def signed(word):
    """The offset of a near pointer."""
    offset = (word & 0xffffffff) >> 2
    return offset - (1 << 30) if offset >> 29 else offset


class Reader:
    """Reads a message within limits."""

    def __init__(self, segments, nesting=NESTING, words=WORDS, element_levels=0):
        self.segments, self.nesting, self.left = segments, nesting, words
        # the levels that each element of a list of structs takes in addition to that of the list
        self.element_levels = element_levels
        self.seen, self.reads = set(), MOST_READS

    def charge(self, words):
        if self.left is not None:
            if words > self.left:
                raise Refused('limit', SECURITY)
            self.left -= words

    def root(self):
        if not self.segments or not self.segments[0]:
            raise Refused('malformed', 'Messages')
        self.charge(1)

    def read(self):
        self.root()
        return self.value(0, 0, self.nesting)

    def value(self, segment, at, levels):
        """The value of the pointer at a place."""
        self.reads -= 1
        if self.reads < 0:
            raise RuntimeError('this message takes too long for the corpus')
        word = self.segments[segment][at]
        if word == 0:
            return NULL
        start = None
        if word & 3 == 2:
            segment, start, word = self.follow(word)
        else:
            start = self.led(segment, at, word)
        kind = word & 3
        if kind == 3:
            if word & 0xffffffff == 3:
                raise Refused('capability', CAPABILITIES)
            raise Refused('malformed', CAPABILITIES)
        if levels <= 0:
            raise Refused('nesting', SECURITY)
        return (self.struct if kind == 0 else self.list)(segment, start, word, levels - 1)

    def led(self, segment, at, word):
        """Where a near pointer leads: anywhere in the segment, or to its end."""
        if word & 3 > 1:
            return None
        start = at + 1 + signed(word)
        if not 0 <= start <= len(self.segments[segment]):
            if claim(word) == 0:
                self.seen.add('empty object outside')
            raise Refused('malformed', STRUCTS if word & 3 == 0 else LISTS)
        return start

    def follow(self, word):
        """The segment, the start, and the word that describes the object, over a far pointer."""
        self.seen.add('far')
        segment, at, double = word >> 32, (word & 0xffffffff) >> 3, word >> 2 & 1
        if segment >= len(self.segments) or at + 1 + double > len(self.segments[segment]):
            raise Refused('malformed', FARS)
        self.charge(1 + double)
        pad = self.segments[segment][at]
        if not double:
            if pad & 3 == 2:
                raise Refused('malformed', FARS)
            return segment, self.led(segment, at, pad), pad
        tag = self.segments[segment][at + 1]
        if pad & 3 != 2 or pad >> 2 & 1:
            self.seen.add('pad kind')
        segment, start = pad >> 32, (pad & 0xffffffff) >> 3
        if segment >= len(self.segments):
            raise Refused('malformed', FARS)
        if not self.segments[segment]:
            self.seen.add('empty segment')
        if tag & 3 == 2:
            raise Refused('malformed', FARS)
        return segment, start, tag

    def claimed(self, segment, start, words, section):
        if start + words > len(self.segments[segment]):
            if words == 0:
                self.seen.add('empty object outside')
            raise Refused('malformed', section)
        self.charge(words)

    def struct(self, segment, start, word, levels):
        self.claimed(segment, start, claim(word), STRUCTS)
        return self.body(segment, start, word >> 32 & 0xffff, word >> 48, levels)

    def body(self, segment, start, data, pointers, levels):
        words = self.segments[segment][start:start + data]
        return 'struct', words, tuple(self.value(segment, start + data + i, levels) for i in range(pointers))

    def list(self, segment, start, word, levels):
        size, count = word >> 32 & 7, word >> 35
        self.seen.add('list')
        self.claimed(segment, start, claim(word), LISTS)
        if size == 7:
            tag = self.tag(segment, start, count)
            self.seen.add('list of structs')
            data, pointers = tag >> 32 & 0xffff, tag >> 48
            step, number = data + pointers, (tag & 0xffffffff) >> 2
            if step == 0:
                self.charge(number)
                return 'structs', number, ()
            if number and levels < self.element_levels:
                raise Refused('nesting', SECURITY)
            levels -= self.element_levels
            return 'structs', number, tuple(self.body(segment, start + 1 + i * step, data, pointers, levels) for i in range(number))
        if size == 6:
            return 'pointers', tuple(self.value(segment, start + i, levels) for i in range(count))
        if size == 0:
            self.charge(count)
        bits = BITS[size] * count
        whole = bytes_of(self.segments[segment][start:start + claim(word)])
        number = int.from_bytes(whole, 'little') & ((1 << bits) - 1)
        return 'list', size, count, number.to_bytes(len(whole), 'little')

    def tag(self, segment, start, claimed):
        tag = self.segments[segment][start]
        if tag & 3:
            raise Refused('malformed', LISTS)
        number, step = (tag & 0xffffffff) >> 2, (tag >> 32 & 0xffff) + (tag >> 48)
        if number >> 29:
            self.seen.add('tag of 30 bits')
        if number * step > claimed:
            raise Refused('malformed', LISTS)
        return tag


def claim(word):
    """The number of words that a pointer claims, with the tag of a list of structs."""
    if word & 3 == 0:
        return (word >> 32 & 0xffff) + (word >> 48)
    size, count = word >> 32 & 7, word >> 35
    return count + 1 if size == 7 else (BITS[size] * count + 63) // 64


def read(segments, nesting=NESTING, words=WORDS):
    return Reader(segments, nesting, words).read()


# ---- canonical words


def used(body):
    """The data words and the pointers before the zeros and nulls at the ends."""
    _, data, pointers = body
    return last(data, 0), last(pointers, NULL)


def last(row, zero):
    count = len(row)
    while count and row[count - 1] == zero:
        count -= 1
    return count


def words_of(value):
    """The canonical words of a value, the root pointer first ("Canonicalization")."""
    words = [0]
    put(words, 0, value)
    return words


def put(words, at, value):
    """Puts a value at the end of words, and its pointer at a place."""
    if value is NULL:
        return
    start = len(words)
    near = lambda low, high: high << 32 | (start - at - 1) << 2 | low
    if value[0] == 'struct':
        data, pointers = used(value)
        if data + pointers == 0:
            words[at] = 0xfffffffc
            return
        words[at] = near(0, pointers << 16 | data)
        put_bodies(words, [value], data, pointers)
    elif value[0] == 'structs':
        _, count, bodies = value
        data, pointers = (max((used(it)[i] for it in bodies), default=0) for i in (0, 1))
        words[at] = near(1, count * (data + pointers) << 3 | 7) if data + pointers else near(1, 7)
        words.append(pointers << 48 | data << 32 | count << 2)
        put_bodies(words, bodies if data + pointers else (), data, pointers)
    elif value[0] == 'pointers':
        words[at] = near(1, len(value[1]) << 3 | 6)
        words.extend([0] * len(value[1]))
        for i, it in enumerate(value[1]):
            put(words, start + i, it)
    else:
        _, size, count, data = value
        words[at] = near(1, count << 3 | size)
        words.extend(struct.unpack(f'<{len(data) // 8}Q', data))


def put_bodies(words, bodies, data, pointers):
    start, step = len(words), data + pointers
    for _, body, _ in bodies:
        words.extend((tuple(body) + (0,) * data)[:data])
        words.extend([0] * pointers)
    for i, (_, _, children) in enumerate(bodies):
        for j, it in enumerate(children[:pointers]):
            put(words, start + i * step + data + j, it)


# ---- the test


class Test(Reader):
    """Tests whether the words of segment 0 are canonical, from the root on, object by object in order."""

    def run(self):
        if len(self.segments) != 1:
            raise Fault('SegmentCount', 0, 1)
        self.root()
        self.head = 1
        self.pointer(0, self.nesting)
        if self.head != len(self.segments[0]):
            raise Fault('WordsBehind', self.head)

    def pointer(self, at, levels):
        self.reads -= 1
        if self.reads < 0:
            raise RuntimeError('this message takes too long for the corpus')
        word = self.segments[0][at]
        if word == 0:
            return
        if word & 3 > 1:
            raise Fault('FarPointer' if word & 3 == 2 else 'Capability' if word & 0xffffffff == 3 else 'UnknownPointer', at)
        start = self.led(0, at, word)
        if levels <= 0:
            raise Refused('nesting', SECURITY)
        self.claimed(0, start, claim(word), STRUCTS if word & 3 == 0 else LISTS)
        (self.is_struct if word & 3 == 0 else self.is_list)(at, start, word, levels - 1)

    def at_head(self, at, start):
        if start != self.head:
            raise Fault('ObjectPlace', at)

    def is_struct(self, at, start, word, levels):
        data, pointers = word >> 32 & 0xffff, word >> 48
        if data + pointers == 0:
            if start != at:
                raise Fault('EmptyStructPlace', at)
            return
        self.at_head(at, start)
        self.head = start + data + pointers
        for i in range(pointers):
            self.pointer(start + data + i, levels)
        if data and self.segments[0][start + data - 1] == 0:
            raise Fault('DataSection', start + data - 1)
        if pointers and self.segments[0][start + data + pointers - 1] == 0:
            raise Fault('PointerSection', start + data + pointers - 1)

    def is_list(self, at, start, word, levels):
        size, count = word >> 32 & 7, word >> 35
        if size == 7:
            return self.are_structs(at, start, count, levels)
        if size == 0:
            self.charge(count)
        self.at_head(at, start)
        self.head = start + claim(word)
        if size == 6:
            for i in range(count):
                self.pointer(start + i, levels)
        else:
            rest = BITS[size] * count % 64
            if rest and self.segments[0][self.head - 1] >> rest:
                raise Fault('Padding', self.head - 1)

    def are_structs(self, at, start, claimed, levels):
        tag = self.tag(0, start, claimed)
        number, data, pointers = (tag & 0xffffffff) >> 2, tag >> 32 & 0xffff, tag >> 48
        step = data + pointers
        if step == 0:
            self.charge(number)
        self.at_head(at, start)
        if number * step != claimed:
            raise Fault('ElementWords', start)
        if step == 0:
            self.head = start + 1
            return
        self.head = start + 1 + claimed
        if number and levels < self.element_levels:
            raise Refused('nesting', SECURITY)
        levels -= self.element_levels
        for i in range(number):
            for j in range(pointers):
                self.pointer(start + 1 + i * step + data + j, levels)
        ends = lambda width: any(self.segments[0][start + i * step + width] for i in range(number))
        if data and not ends(data):
            raise Fault('ElementData', start)
        if pointers and not ends(step):
            raise Fault('ElementPointers', start)
