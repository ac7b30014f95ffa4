"""Reads the value of a message that was built. Follows the encoding specification, and shares no code with the crates."""


def word_at(segments, segment, at):
    return int.from_bytes(segments[segment][8 * at:8 * at + 8], 'little')


def signed(word, bits):
    """The signed number in the 30 bits after the kind of the pointer."""
    offset = word >> 2 & 0x3fffffff
    return offset - (1 << bits) if offset >> bits - 1 else offset


def landed(segments, segment, at):
    """The word that describes an object, and where the object starts. Follows far pointers."""
    word = word_at(segments, segment, at)
    if word & 3 != 2:
        return word, segment, at + 1 + signed(word, 30)
    pad, position = word >> 32, word >> 3 & 0x1fffffff
    if not word & 4:
        tag = word_at(segments, pad, position)
        return tag, pad, position + 1 + signed(tag, 30)
    far = word_at(segments, pad, position)
    return word_at(segments, pad, position + 1), far >> 32, far >> 3 & 0x1fffffff


def structs(segments, segment, at, words, pointers, count):
    """The `count` consecutive structs of this size, starting at a place."""
    size = words + pointers
    return [struct(segments, segment, at + i * size, words, pointers) for i in range(count)]


def struct(segments, segment, at, words, pointers):
    data = segments[segment][8 * at:8 * (at + words)]
    return data, [value(segments, segment, at + words + i) for i in range(pointers)]


def value(segments, segment=0, at=0):
    """The value that a pointer word leads to, in a message that a builder made."""
    if not word_at(segments, segment, at):
        return None
    word, segment, at = landed(segments, segment, at)
    if word & 3 == 3:
        return 'capability', word >> 32
    if word & 3 == 0:
        return 'struct', struct(segments, segment, at, word >> 32 & 0xffff, word >> 48)
    size, count = word >> 32 & 7, word >> 35
    if size == 7:
        tag = word_at(segments, segment, at)
        words, pointers = tag >> 32 & 0xffff, tag >> 48
        return 'structs', words, pointers, structs(segments, segment, at + 1, words, pointers, tag >> 2 & 0x3fffffff)
    if size == 6:
        return 'pointers', [value(segments, segment, at + i) for i in range(count)]
    bits = (0, 1, 8, 16, 32, 64)[size] * count
    return 'list', size, count, segments[segment][8 * at:8 * at + (bits + 7) // 8]


def segments_of(text):
    """The segments given as hex digits, separated by commas."""
    return [bytes.fromhex(segment) for segment in text.split(',')]
