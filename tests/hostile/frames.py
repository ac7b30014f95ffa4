"""Writes and reads frames. Follows the encoding specification ("Serialization Over a Stream"), and shares no code with the
crates."""

MOST_SEGMENTS = 512
MOST_WORDS = 8_388_608


def whole_words(segment):
    return segment[:len(segment) // 8 * 8]


def number_at(frame, at):
    """The number in the four bytes at a position, or None if the frame ends before."""
    return int.from_bytes(frame[at:at + 4], 'little') if at + 4 <= len(frame) else None


def framed(segments):
    """The frame of a message as hex digits."""
    segments = [whole_words(it) for it in segments]
    table = [len(segments) - 1, *(len(it) // 8 for it in segments)]
    padding = bytes(4 * (len(table) % 2))
    return b''.join([*(it.to_bytes(4, 'little') for it in table), padding, *segments]).hex()


def table_of(frame):
    """The lengths of a frame's segments in words, and where their words begin; or the name of the refusal."""
    if not frame:
        return 'NoMessage'
    count = number_at(frame, 0)
    if count is None:
        return 'Truncated'
    if count + 1 > MOST_SEGMENTS:
        return 'TooManySegments'
    start = (4 * (count + 2) + 7) // 8 * 8
    if len(frame) < start:
        return 'Truncated'
    return [number_at(frame, 4 * i + 4) for i in range(count + 1)], start


def refusal(frame):
    """The name of the refusal of a frame, or None if it holds a message."""
    table = table_of(frame)
    if isinstance(table, str):
        return table
    lengths, start = table
    if sum(lengths) > MOST_WORDS:
        return 'MessageTooLong'
    return 'Truncated' if len(frame) < start + 8 * sum(lengths) else None


def parted(frame):
    """The segments of a frame that isn't refused."""
    lengths, at = table_of(frame)
    segments = []
    for length in lengths:
        segments.append(frame[at:at + 8 * length])
        at += 8 * length
    return segments
