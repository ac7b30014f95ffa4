"""Compares the constants of an LLVM module with those of the C that was made from it.

    python3 tools/c_of_module/constants.py MODULE.ll FILE.c

A wrong constant would compile, and no C compiler could tell. So this reads both texts a second time, and shares no code
with the writer. Prints `N constants`, or the first one that differs, and exits with 1."""
import pathlib
import re
import sys

CONSTANT = re.compile(r'^(@(?:"[^"]*"|[-\w.$]+)) = [^\[]*\bconstant \[(\d+) x (i\d+|ptr)\] (.*)$', re.M)
STATIC = re.compile(r'^static const (?:u\d+|struct place|struct \{ (?P<fields>[^}]*) \}) (\w+)\[(\d+)\] = (.*?);$', re.M | re.S)
# A constant with parts of several types: addresses and bytes.
RECORD = re.compile(r'^(@(?:"[^"]*"|[-\w.$]+)) = [^<]*\bconstant <\{[^}]*\}> <\{ (.*) \}>')
PART = re.compile(r'ptr (?:getelementptr [\w ]*\(i8, ptr )?(@(?:"[^"]*"|[-\w.$]+))(?:, i64 (\d+)\))?|\[(\d+) x i8\] (c"[^"]*"|zeroinitializer)')
ESCAPED = {'\\': 92, '"': 34, '?': 63, 'n': 10}


def bytes_of_module(text):
    """The bytes of a text as LLVM writes it: after a backslash comes another one, or two hex digits."""
    found, at = [], 0
    while text[at] != '"':
        if text[at] != '\\':
            found.append(ord(text[at]))
            at += 1
        elif text[at + 1] == '\\':
            found.append(92)
            at += 2
        else:
            found.append(int(text[at + 1:at + 3], 16))
            at += 3
    return found


def bytes_of_c(text):
    """The bytes of C's texts, one after the other; only the escapes of ESCAPED are known."""
    found, at, inside = [], 0, False
    while at < len(text):
        if text[at] == '"':
            inside = not inside
        elif inside and text[at] == '\\':
            at += 1
            found.append(ESCAPED[text[at]])
        elif inside:
            found.append(ord(text[at]))
        elif not text[at].isspace():
            raise ValueError(f'{text[at]!r} between two texts')
        at += 1
    return found


def parts_of_module(text):
    """The parts of a record: for an address the name of a constant and how many bytes are added to it, and each byte of the rest."""
    for name, by, count, data in PART.findall(text):
        found = [name, int(by or 0)] if name else bytes_of_module(data[2:]) if data[0] == 'c' else []
        yield from found + [0] * (int(count or 0) - len(found))


def parts_of_c(fields, values):
    """The same for C. C fills a row with zeros."""
    for size in re.findall(r'struct place \w+;|u8 \w+\[(\d+)\];', fields):
        shape = r'\{([\d,\s]*)\}|("(?:[^"\\]|\\.)*"(?:\s+"(?:[^"\\]|\\.)*")*)' if size else r'PLACE\(\(const\s+u8\s+\*\)(\w+)\s+\+\s+(\d+)\)'
        part = re.compile(r'[\s,]*(?:' + shape + ')').match(values)
        found = [part[1], int(part[2])] if not size else bytes_of_c(part[2]) if part[2] else [int(it) for it in part[1].split(',')]
        yield from found + [0] * (int(size or 0) - len(found))
        values = values[part.end():]


def of_module(text):
    """Each constant of the module: its name, the number of its elements, and the elements, each a number or the name of another
    constant."""
    for line in text.split('\n'):
        if record := RECORD.match(line):
            parts = list(parts_of_module(record[2]))
            yield record[1], len(parts), parts
            continue
        if not (constant := CONSTANT.match(line)):
            continue
        name, count, kind, value = constant.groups()
        count = int(count)
        if value.startswith('c"'):
            yield name, count, bytes_of_module(value[2:])
        elif value.startswith('['):
            elements = re.findall(r'(?:i\d+|ptr) (-?\d+|poison|@(?:"[^"]*"|[-\w.$]+))', value[1:value.index(']')])
            size = 0 if kind == 'ptr' else int(kind[1:])
            # what nothing reads is zero in C
            yield name, count, [it if it[0] == '@' else 0 if it == 'poison' else int(it) % (1 << size) for it in elements]
        else:
            yield name, count, [0] * count


def of_c(text):
    """The same for the C file, with the names there."""
    for fields, name, count, value in STATIC.findall(text):
        if fields:
            parts = list(parts_of_c(fields, value.removeprefix('{ { ')))
            yield name, len(parts), parts
            continue
        if value.startswith('"'):
            yield name, int(count), bytes_of_c(value)
            continue
        elements = re.findall(r'\w+', re.sub(r'\bPLACE\((?:\(const\s+u8\s+\*\))?(\w+)\)', r'\1', value))
        yield name, int(count), [int(it.rstrip('u')) if it[0].isdigit() else it for it in elements]


def differing(module, c):
    """The name of the first constant that differs, or None, and how many there are."""
    wanted, written = list(of_module(module)), list(of_c(c))
    if len(wanted) != len(re.findall(r'^@.* constant ', module, re.M)) or len(wanted) != len(written):
        return 'a constant of the module that is missing', len(written)
    names = {theirs: ours for (theirs, *_), (ours, *_) in zip(wanted, written)}
    for (name, count, elements), (_, size, found) in zip(wanted, written):
        elements = [names.get(it, it) for it in elements]
        # C fills a row with zeros, and a text of as many bytes as the row has ends without one
        found = found + [0] * (size - len(found))
        if elements + [0] * (size - count) != found or size != max(count, 1):
            return name, len(wanted)
    return None, len(wanted)


def main(given):
    if len(given) != 2:
        sys.exit(__doc__)
    wrong, count = differing(*(pathlib.Path(it).read_text(encoding='latin-1') for it in given))
    if wrong:
        sys.exit(f'{given[1]}: {wrong} isn\'t what {given[0]} has')
    print(f'{count} constants')


if __name__ == '__main__':
    main(sys.argv[1:])
