"""A model of reading, written from docs/FORMAT.md ("Charges and refusals") and the encoding specification: the name of the
refusal that reading a message meets first, with the segment and the word of the pointer at which it does. It reads each
object when its pointer comes, in order, and charges for it, like the program.

Used for the expected line on standard error of runs whose name of a refusal comes from elsewhere. So it is an error if the model
finds another name."""

TOO_DEEP = 'MessageIsTooDeeplyNestedOrContainsCycles'
OUTSIDE = 'MessageContainsOutOfBoundsPointer'
# How the names of `check` differ for a list.
TESTED = {TOO_DEEP: 'NestingLimitExceeded'}
BITS = 0, 1, 8, 16, 32, 64


class Refused(Exception):
    def __init__(self, name, segment, word):
        super().__init__(name)
        self.name, self.segment, self.word = name, segment, word


class Reading:
    """Reads the value of a message; `command` is canon, digest, check, validate or size."""

    def __init__(self, command, segments, nesting, words):
        self.command, self.segments, self.nesting, self.most, self.spent = command, segments, nesting, words, 0
        # What the values cost that were read to their end, by the place of their pointer and the levels left there. A value that
        # is reached again within the limit is charged for, and not read once more.
        self.costs = {}
        self.is_size, self.is_canonical = command == 'size', command in ('canon', 'digest')

    def length(self, segment):
        return len(self.segments[segment]) // 8 if segment < len(self.segments) else 0

    def word(self, segment, at):
        return int.from_bytes(self.segments[segment][8 * at:8 * at + 8], 'little') if at < self.length(segment) else 0

    def refuse(self, name):
        raise Refused(name, *self.pointer)

    def charge(self, words):
        if self.most is not None and self.spent + words > self.most:
            self.refuse('ReadLimitExceeded')
        self.spent += words

    def root(self):
        self.pointer = 0, 0
        if self.length(0) == 0:
            self.refuse(OUTSIDE)
        self.charge(1)
        self.value(0, 0, max(self.nesting, 0))

    def near(self, word, segment, at):
        """What a word that isn't a far pointer leads to: the word, and the segment and word at which the object starts."""
        offset = word >> 2 & 0x3FFFFFFF
        start = at + 1 + (offset - (1 << 30) if offset >> 29 else offset)
        if not 0 <= start <= self.length(segment):
            self.refuse(OUTSIDE)
        return word, segment, start

    def target(self, word, segment, at):
        if word & 3 != 2:
            return self.near(word, segment, at)
        double, pad, to = word >> 2 & 1, word >> 3 & 0x1FFFFFFF, word >> 32
        if to >= len(self.segments):
            self.refuse('InvalidSegmentId')
        if pad + double >= self.length(to):
            self.refuse(OUTSIDE)
        self.charge(1 + double)
        landing = self.word(to, pad)
        if not double:
            return self.near(landing, to, pad)
        if landing >> 32 >= len(self.segments):
            self.refuse('InvalidSegmentId')
        return self.word(to, pad + 1), landing >> 32, landing >> 3 & 0x1FFFFFFF

    def value(self, segment, at, levels):
        self.pointer = segment, at
        word = self.word(segment, at)
        if word == 0:
            return
        if self.is_size and levels == 0:
            self.refuse('MessageIsTooDeeplyNested')
        word, to, start = self.target(word, segment, at)
        if word & 3 == 2:
            self.refuse('MalformedDoubleFarPointer')
        if word & 3 == 3:
            if word & 0xFFFFFFFF != 3:
                self.refuse('UnknownPointerType')
            if self.is_canonical:
                self.refuse('CannotCreateACanonicalMessageWithACapability')
            return
        self.list_here = word & 3 == 1
        if levels == 0:
            self.refuse(TESTED[TOO_DEEP] if self.command == 'check' and self.list_here else TOO_DEEP)
        for place in self.entered(word, to, start) if word & 3 == 0 or word >> 32 & 7 != 7 else self.elements(word, to, start):
            cost = self.costs.get((to, place, levels - 1))
            if cost is None or self.most is not None and self.spent + cost > self.most:
                before = self.spent
                self.value(to, place, levels - 1)
                self.costs[to, place, levels - 1] = self.spent - before
            else:
                self.spent += cost

    def claim(self, to, start, words):
        if start + words > self.length(to):
            self.refuse(OUTSIDE)
        self.charge(words)

    def entered(self, word, to, start):
        """The places of the pointers of a struct or a list that isn't one of structs, which is claimed first."""
        if word & 3 == 0:
            data, pointers = word >> 32 & 0xFFFF, word >> 48
            self.claim(to, start, data + pointers)
            return range(start + data, start + data + pointers)
        size, count = word >> 32 & 7, word >> 35
        if size == 6:
            self.claim(to, start, count)
            return range(start, start + count)
        if size or not self.is_size:
            self.claim(to, start, (count * BITS[size] + 63) // 64)
        if size == 0 and not self.is_size:
            self.charge(count)
        return ()

    def elements(self, word, to, start):
        """The same for a list of structs."""
        claimed = word >> 35
        self.claim(to, start, 1 + claimed)
        tag = self.word(to, start)
        count, data, pointers = tag >> 2 & 0x3FFFFFFF, tag >> 32 & 0xFFFF, tag >> 48
        if tag & 3:
            self.refuse('CantHandleNonStructInlineComposite' if self.is_size else 'InlineCompositeListsOfNonStructTypeAreNotSupported')
        if count * (data + pointers) > claimed:
            self.refuse('InlineCompositeListsElementsOverrunItsWordCount')
        if data + pointers == 0:
            if not self.is_size:
                self.charge(count)
            return
        for i in range(count if pointers else 0):
            first = start + 1 + i * (data + pointers) + data
            yield from range(first, first + pointers)


def refusal(command, segments, nesting, words):
    """The refusal that reading these segments (bytes) meets; None if there is none. No limit on words is None."""
    try:
        Reading(command, segments, nesting, words).root()
    except Refused as refused:
        return refused
    return None


def segments_of(frame):
    """The segments of the frame at the front of these bytes."""
    count = int.from_bytes(frame[:4], 'little') + 1
    at = (4 * (count + 1) + 7) // 8 * 8
    segments = []
    for i in range(count):
        size = 8 * int.from_bytes(frame[4 * i + 4:4 * i + 8], 'little')
        segments.append(frame[at:at + size])
        at += size
    return segments


def told(name, command, segments, nesting, words):
    """The text after the name of a refusal: at which segment and word, if a pointer is refused."""
    if name in ('AllocationFailed', 'MessageTooLarge') or (found := refusal(command, segments, nesting, words)) is None:
        return ''
    if found.name != name:
        raise ValueError(f'{command} is refused with {name}, but the model finds {found.name}')
    return f' at segment {found.segment}, word {found.word}'
