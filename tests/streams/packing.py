"""Packs and unpacks bytes. Follows the encoding specification ("Packing"), and shares no code with the crates."""


def words_of(data):
    return [data[at:at + 8] for at in range(0, len(data), 8)]


def packed(data, most=255):
    """Packs whole words, with at most `most` words in each run."""
    words = words_of(data)
    out, i = bytearray(), 0
    while i < len(words):
        word = words[i]
        i += 1
        out.append(sum(1 << place for place in range(8) if word[place]))
        out += bytes(byte for byte in word if byte)
        if not any(word) or all(word):
            run = i
            while run < len(words) and run - i < most and (all(words[run]) if any(word) else not any(words[run])):
                run += 1
            out.append(run - i)
            if any(word):
                out += b''.join(words[i:run])
            i = run
    return bytes(out)


def unpacked(data):
    """The unpacked bytes, and whether the packed ones end after a whole word or its run."""
    out, rest = bytearray(), iter(data)
    try:
        for tag in rest:
            for place in range(8):
                out.append(next(rest) if tag >> place & 1 else 0)
            if tag == 0:
                out += bytes(8 * next(rest))
            elif tag == 255:
                for _ in range(8 * next(rest)):
                    out.append(next(rest))
    except StopIteration:
        return bytes(out), False
    return bytes(out), True

