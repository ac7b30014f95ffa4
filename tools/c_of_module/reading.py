"""Reads the text of an LLVM module: the tokens of a line, types, values and names."""
import hashlib
import re
from collections import Counter

TOKEN = re.compile(r'''c"[^"]*"|[%@](?:"[^"]*"|[-\w.$]+)|"[^"]*"|!\w+|\#\d+|-?\d+(?![\w.])|[A-Za-z_][\w.]*|\.\.\.|[][(){}<>,=:]''')
# Promises about a value or a call, and advice how to call: C can do without them.
PROMISES = {
    'align', 'captures', 'ccc', 'dereferenceable', 'dereferenceable_or_null', 'disjoint', 'dso_local', 'exact', 'fastcc',
    'immarg', 'inbounds', 'initializes', 'internal', 'local_unnamed_addr', 'nneg', 'noalias', 'nofree', 'nonnull', 'notail',
    'noundef', 'nsw', 'nuw', 'nusw', 'private', 'range', 'readnone', 'readonly', 'returned', 'samesign', 'tail', 'unnamed_addr',
    'writeonly', 'zeroext',
}
# The promises that may have an argument in brackets.
BRACKETED = {'captures', 'dereferenceable', 'dereferenceable_or_null', 'initializes', 'range'}
ZERO = ('zeroinitializer', 'undef', 'poison')


class Unknown(Exception):
    """The module has something that isn't known here; the text says what."""


# Numbers of widths that C doesn't have, which C keeps in 64 bits, where the other bits are zero. They are moved, truncated,
# extended, shifted, multiplied, compared without a sign and combined bit by bit; nothing else of them is known.
UNCOUNTED = 'i24', 'i40', 'i48', 'i56'


# Types are 'i64', 'ptr', 'void', ('array', COUNT, OF), ('vector', COUNT, OF) and ('struct', (OF..)).
def bits(kind):
    return int(kind[1:]) if isinstance(kind, str) and kind[0] == 'i' else None


def size_of(kind):
    """The size in bytes and the alignment, which are the same in the module and in C."""
    if kind in UNCOUNTED:
        raise Unknown(f'{kind} in memory')
    if isinstance(kind, str):
        size = 8 if kind == 'ptr' else max(bits(kind) // 8, 1)
        return size, size
    if kind[0] == 'struct':
        at = align = 1
        for at, it in laid_out(kind):
            align = max(align, size_of(it)[1])
        return -(-(at + size_of(kind[1][-1])[0]) // align) * align, align
    size, align = size_of(kind[2])
    return kind[1] * size, align if kind[0] == 'array' else kind[1] * size


def laid_out(kind):
    """The fields of a struct, each with its offset before it."""
    at = 0
    for it in kind[1]:
        size, align = size_of(it)
        at = -(-at // align) * align
        yield at, it
        at += size


def c_type(kind):
    if isinstance(kind, str):
        return {'ptr': 'u8 *', 'void': 'void', 'i1': 'u8', **dict.fromkeys(UNCOUNTED, 'u64')}.get(kind) or f'u{bits(kind)}'
    if kind[0] == 'struct':
        return f'struct {struct_name(kind)}'
    if kind[0] == 'vector' and kind[2] in ('i8', 'i1'):
        return f'v{kind[1]}'
    raise Unknown(f'type {kind}')


def struct_name(kind):
    if not all(isinstance(it, str) for it in kind[1]):
        raise Unknown('a struct in a struct')
    return within('_'.join(['s', *('p' if it == 'ptr' else it for it in kind[1])]))


def declared(kind, name):
    kind = c_type(kind)
    return f'{kind}{name}' if kind.endswith('*') else f'{kind} {name}'


def suffix(kind):
    """The end of the names of the functions that read or write such a number."""
    if kind == 'i1':
        raise Unknown('a bit in memory')
    return 'p' if kind == 'ptr' else bits(kind)


class Line:
    """The tokens of a line of the module, which are read in order."""

    def __init__(self, text):
        text = text.split(' ; ')[0]
        self.tokens = TOKEN.findall(text)
        self.at = 0
        unread = TOKEN.sub('', text).strip()
        if unread:
            raise Unknown(f'{unread[:40]} in the text')

    def peek(self):
        return self.tokens[self.at] if self.at < len(self.tokens) else None

    def next(self, wanted=None):
        it = self.peek()
        if it is None or wanted not in (None, it):
            raise Unknown(f'{wanted} wanted, not {it}')
        self.at += 1
        return it

    def takes(self, wanted):
        found = self.peek() == wanted
        self.at += found
        return found

    def skip_promises(self):
        while self.peek() in PROMISES:
            word = self.next()
            if word in BRACKETED and self.peek() == '(':
                depth = 0
                while True:
                    it = self.next()
                    depth += (it == '(') - (it == ')')
                    if not depth:
                        break
            elif word == 'align':
                self.next()

    def end(self):
        """Reads what may come after an instruction: an alignment and notes."""
        while self.peek() is not None:
            it = self.next()
            if it == 'align':
                self.next()
            elif it != ',' and it[0] not in '!#':
                raise Unknown(f'{it} at the end')

    def type(self):
        it = self.next()
        if it in ('ptr', 'void', 'i1', 'i8', 'i16', 'i32', 'i64', *UNCOUNTED):
            return it
        if it == '{':
            kinds = [self.type()]
            while self.takes(','):
                kinds.append(self.type())
            self.next('}')
            return 'struct', tuple(kinds)
        if it in ('[', '<'):
            count = int(self.next())
            self.next('x')
            of = self.type()
            self.next(']' if it == '[' else '>')
            return ('array' if it == '[' else 'vector'), count, of
        raise Unknown(f'type {it}')

    def skip_parameters(self):
        """Skips the types of the parameters in a call of a function with further, variable parameters."""
        if self.takes('('):
            while self.next() != ')':
                pass

    def value(self):
        """A value: a token, a list of constants, the address of a constant, as ('address', NAME, OFFSET) or ('number', NAME),
        or a number in place of an address, as ('pointer', NUMBER)."""
        for opening, closing in ('{', '}'), ('[', ']'), ('<', '>'):
            if self.takes(opening):
                found = [self.typed()[1]]
                while self.takes(','):
                    found.append(self.typed()[1])
                self.next(closing)
                return found
        it = self.next()
        if it == 'getelementptr':
            self.skip_promises()
            self.next('(')
            self.next('i8')
            self.next(',')
            (_, base), _, (_, by) = self.typed(), self.next(','), self.typed()
            self.next(')')
            return 'address', base, int(by)
        if it in ('ptrtoint', 'ptrtoaddr'):
            self.next('(')
            (_, base), _, _ = self.typed(), self.next('to'), self.next('i64')
            self.next(')')
            return 'number', base
        if it == 'inttoptr':
            self.next('(')
            (_, number), _, _ = self.typed(), self.next('to'), self.next('ptr')
            self.next(')')
            return 'pointer', number
        if it[0] in '%@' or re.fullmatch(r'-?\d+', it) or it in ('true', 'false', 'null', *ZERO):
            return it
        raise Unknown(f'value {it}')

    def listed(self, read):
        """What `read` reads, separated by commas, between `{` and `}>`."""
        self.next('{')
        found = [read()]
        while self.takes(','):
            found.append(read())
        self.next('}')
        self.next('>')
        return found

    def part(self):
        """A value, or a text of bytes as it is written."""
        return self.next() if (self.peek() or '').startswith('c"') else self.value()

    def typed(self):
        kind = self.type()
        self.skip_promises()
        return kind, self.value()

    def label(self):
        self.next('label')
        return self.next().strip('%"')


def plain(name):
    """The letters and digits of a name of the module, with `_` for all other characters. Several names may have the same."""
    found = re.sub(r'[^A-Za-z0-9]+', '_', name.strip('%@"')).strip('_')
    return found if re.match('[A-Za-z]', found) else f't{found}'


# C promises to tell names apart by this many characters.
SIGNIFICANT = 63
# The most of a value's name that is kept: C names for it add a number, and a word before it.
FRONT = 32
# What C names of values look like. Constants and internal functions get no such name.
OF_A_VALUE = re.compile('[A-Za-z]+[0-9]*(_[0-9a-z]{2})?(_[0-9]+)?')
# A local of a function or one of its labels, and a note of the module.
LOCAL = re.compile(r'%("[^"]*"|[-\w.$]+)')
NOTE = re.compile(r'[!#]\d+')


def within(name):
    """A name that is longer than C promises to compare is cut, and ends in a sum of the whole."""
    if len(name) <= SIGNIFICANT:
        return name
    return f'{name[:SIGNIFICANT - 9]}_{hashlib.sha256(name.encode()).hexdigest()[:8]}'


def front_of(name):
    """The letters at the front of a value's name. The numbers after them shift if anything changes in the function."""
    return re.match('[A-Za-z]+', plain(name))[0][:FRONT]


def tag_of(text):
    """Two characters for a text of instructions. They don't depend on the numbers in the names of values, nor on notes."""
    digits = '0123456789abcdefghijklmnopqrstuvwxyz'
    text = NOTE.sub('', LOCAL.sub(lambda it: f'%{front_of(it[0])}', text))
    number = int.from_bytes(hashlib.sha256(text.encode()).digest()[:4], 'big')
    return digits[number % 36] + digits[number // 36 % 36]


class Names:
    """C names for those of the module, a different one for each; the same module always has the same ones.

    LLVM ends the name of a value in numbers that shift if anything changes in the function. So the C name of a value is
    the front of its name, and a tag of two characters that depends on the value's instruction. Values with the same
    front and tag are counted. Such names are short, and a change alters few of them. Functions and constants keep their
    whole names if these fit."""

    def __init__(self, tags=None):
        self.of, self.taken, self.counts, self.tags = {}, set(), Counter(), tags or {}

    def __call__(self, name):
        if name not in self.of:
            self.give(name, self.free(name))
        return self.of[name]

    def free(self, name):
        """A C name that isn't taken."""
        whole = plain(name)
        if name[0] == '%':
            front = front_of(name)
            if tag := self.tags.get(f'%{name.lstrip("%").partition("!")[0]}'):
                whole = front = f'{front}_{tag}'
        else:
            whole = front = within(f'g_{whole}' if OF_A_VALUE.fullmatch(whole) else whole)
        if front == whole and front not in self.taken:
            return front
        while True:
            self.counts[front] += 1
            number = f'_{self.counts[front]}'
            if (found := front[:SIGNIFICANT - len(number)] + number) not in self.taken:
                return found

    def give(self, name, wanted):
        if wanted in self.taken:
            raise Unknown(f'two of the name {wanted}')
        self.of[name] = wanted
        self.taken.add(wanted)
