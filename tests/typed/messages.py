"""Random schemas and random messages, and what is compared: what a program prints by generated readers, with what `capnp
decode` prints."""
import multiprocessing.pool
import random
import re
import struct
import subprocess

from schema import BITS, NO_DISCRIMINANT, always, has_default, kind, members, name_of, parsed, unquoted

NUMBERS = [name for name in BITS if name != 'enum']
SHOWN = {'void': 'Void', 'bool': 'Bool', 'text': 'Text', 'data': 'Data', 'float32': 'Float32', 'float64': 'Float64'}
SHOWN |= {f'{sign}int{bits}': f'{"U" if sign else ""}Int{bits}' for sign in ('', 'u') for bits in (8, 16, 32, 64)}
# Words of Rust, Rattle and its prover, among the names of fields.
WORDS = ['type', 'match', 'self', 'in', 'data', 'record', 'module', 'where', 'open', 'list', 'value', 'result', 'let', 'ghost', 'number', 'fooBar', 'httpURL', 'x1']


def older(lines, fields):
    """A struct as it was when it had this many fields. A union with one member isn't one."""
    kept = [line for line in lines if all(int(at) < fields for at in re.findall(r'@(\d+)', line))]
    union = next((i for i, line in enumerate(kept) if line.endswith('union {')), None)
    return kept[:union] if union is not None and len(kept) - union < 4 else kept


class RandomSchema:
    """A schema of structs that refer to one another, with enums, unions and groups. Its text is `text`; `old` is that of an old
    version of it, whose structs and enums lack their last parts."""

    def __init__(self, seed, structs, fields):
        self.random = random.Random(seed)
        self.structs = [f'S{i}' if i else 'Root' for i in range(structs)]
        self.enums = [f'E{i}' for i in range(3)]
        new = [f'@0x{0x8000000000000000 | self.random.getrandbits(63):x};']
        old = [*new]
        for enum in self.enums:
            names = [f'{name} @{i};' for i, name in enumerate(self.random.sample(WORDS, self.random.randint(1, 8)))]
            new.append(f'enum {enum} {{ {" ".join(names)} }}')
            old.append(f'enum {enum} {{ {" ".join(names[:self.random.randint(1, len(names))])} }}')
        for name in self.structs:
            lines = self.struct(self.random.randint(3, fields))
            count = sum(line.count('@') for line in lines)
            new += [f'struct {name} {{', *lines, '}']
            old += [f'struct {name} {{', *older(lines, count - self.random.randint(0, min(count, 5))), '}']
        self.text, self.old = '\n'.join(new) + '\n', '\n'.join(old) + '\n'

    def name(self, taken):
        name = self.random.choice(WORDS) if self.random.random() < .5 else f'f{len(taken)}'
        while name in taken:
            name += 'x'
        taken.add(name)
        return name

    def base(self):
        return self.random.choice([*NUMBERS, 'text', 'data', 'enum', 'struct', 'void', 'list', 'list', 'any'])

    def type(self, what, depth=2):
        if what == 'enum':
            return self.random.choice(self.enums)
        if what == 'struct':
            return self.random.choice(self.structs)
        if what == 'any':
            return 'AnyPointer'
        if what == 'list':
            inner = self.base()
            while inner == 'any' or inner == 'list' and not depth:
                inner = self.base()
            return f'List({self.type(inner, depth - 1)})'
        return SHOWN[what]

    def default(self, what):
        if what == 'enum' or self.random.random() < .5:
            return ''
        if what in ('text', 'data'):
            return ' = "hello"' if what == 'text' else ' = 0x"00 ff 10 22"'
        return f' = {number(self.random, what)}' if what in NUMBERS and not what.startswith('float') else ''

    def struct(self, count):
        taken, at, lines = set(), 0, []
        union = self.random.random() < .5
        for _ in range(count):
            what = self.base()
            lines.append(f'  {self.name(taken)} @{at} :{self.type(what)}{self.default(what)};')
            at += 1
        if union:
            opened = '  union {' if self.random.random() < .5 else f'  {self.name(taken)} :union {{'
            lines.append(opened)
            for _ in range(self.random.randint(2, 6)):
                if self.random.random() < .2:
                    inner = set()
                    lines.append(f'    {self.name(taken)} :group {{ {self.name(inner)} @{at} :UInt32; {self.name(inner)} @{at + 1} :Text; }}')
                    at += 2
                    continue
                what = self.base()
                lines.append(f'    {self.name(taken)} @{at} :{self.type(what)};')
                at += 1
            lines.append('  }')
        return lines


def mutual(structs=100, fields=500, depth=60):
    """The text of a schema that is hard for generators: structs that all refer to one another, one with many fields, groups inside
    one another, and unions inside one another."""
    choices = random.Random(structs)
    kinds = [*(SHOWN[it] for it in (*NUMBERS[1:], 'bool', 'void', 'text', 'data')), 'E']
    lines = ['@0xd0d1d2d3d4d5d604;', 'enum E { a @0; b @1; c @2; }']
    for i in range(structs):
        other = [f'S{(i * by + more) % structs}' for by, more in ((1, 1), (7, 3), (31, 5), (1, structs // 2), (1, 2), (1, 3))]
        lines.append(f'struct S{i} {{ next @0 :{other[0]}; all @1 :List({other[1]}); up @2 :{other[2]}; id @3 :UInt32; name @4 :Text; '
                     f'rows @5 :List(List({other[3]})); union {{ left @6 :{other[4]}; right @7 :List({other[5]}); none @8 :Void; }} }}')
    lines.append('struct Many {')
    for i in range(fields):
        inner = choices.choice([*kinds, f'S{choices.randrange(structs)}'])
        lines.append(f'  f{i} @{i} :{f"List({inner})" if choices.random() < .2 else inner};')
    lines += ['}', 'struct Deep {', *(f'  g{i} :group {{ v{i} @{2 * i} :UInt8; t{i} @{2 * i + 1} :Text;' for i in range(depth)), '}' * depth, '}']
    lines += ['struct Unions {', *(f'  u{i} :union {{ a{i} @{2 * i} :Void; b{i} @{2 * i + 1} :Text;' for i in range(3)), '}}}', '}']
    return '\n'.join(lines) + '\n'


def number(choices, what):
    """The text of a number of this kind."""
    if what == 'bool':
        return choices.choice(['true', 'false'])
    if what.startswith('float'):
        value = choices.choice([0.0, 1.5, -2.25, choices.uniform(-1e6, 1e6), 1e-20, -1e30])
        return repr(struct.unpack('<f', struct.pack('<f', value))[0] if what == 'float32' else value)
    bits = BITS[what]
    if what.startswith('u'):
        return str(choices.choice([0, 1, 2 ** bits - 1, choices.randrange(2 ** bits), choices.randrange(256)]))
    return str(choices.choice([0, 1, -1, 2 ** (bits - 1) - 1, -2 ** (bits - 1), choices.randrange(-2 ** (bits - 1), 2 ** (bits - 1))]))


class RandomValues:
    """Texts of random values of a schema, for `capnp encode`."""

    def __init__(self, schema, seed):
        self.schema, self.random = schema, random.Random(seed)

    def value(self, of, depth):
        what = kind(of)
        if what == 'void':
            return 'void'
        if what == 'enum':
            return name_of(self.random.choice(self.schema.declared(of)['enum']['enumerants']))
        if what in BITS:
            return number(self.random, what)
        if what == 'text':
            return '"' + ''.join(self.random.choice('ab 09_-~{') for _ in range(self.random.choice([0, 1, 3, 7, 8, 9, 30]))) + '"'
        if what == 'data':
            some = bytes(self.random.randrange(256) for _ in range(self.random.choice([0, 1, 7, 8, 9, 20])))
            return f'0x"{some.hex()}"' if some else '""'
        if what == 'struct':
            return self.struct(self.schema.declared(of), depth - 1)
        if what == 'list':
            inner = of['list']['elementType']
            count = self.random.choice([0, 1, 2, 3, 8, 9, 17] if kind(inner) in BITS else [0, 1, 2, 3])
            found = [self.value(inner, depth - 1) for _ in range(count)]
            return None if None in found else f'[{", ".join(found)}]'
        return None

    def struct(self, node, depth):
        fields = always(node)
        if (choice := members(node)) and self.random.random() < .95:
            fields = [*fields, self.random.choice(choice)]
        shown = []
        for field in fields:
            if 'group' in field:
                found = self.struct(self.schema.nodes[field['group']['typeId']], depth)
            elif kind(field['slot']['type']) in ('struct', 'list') and (depth <= 0 or self.random.random() < .4) or self.random.random() < .2:
                continue
            else:
                found = self.value(field['slot']['type'], depth)
            if found is not None:
                shown.append(f'{name_of(field)} = {found}')
        return f'({", ".join(shown)})'


def frames(schema, roots, count, seed):
    """The frames of random messages, whose roots are these structs in turn."""
    make = RandomValues(schema, seed)
    texts = [make.struct(schema.find(roots[i % len(roots)]), 4) for i in range(count)]

    def encoded(i):
        return subprocess.run(['capnp', 'encode', schema.path, roots[i % len(roots)]], input=texts[i].encode(), stdout=subprocess.PIPE, check=True).stdout

    return every(encoded, range(count))


def altered(rng, frame):
    """The frame with one to three changes of its words: a bit, a byte, or a word that is zeroed or copied over another."""
    changed, words = bytearray(frame), len(frame) // 8 - 1
    for _ in range(rng.randint(1, 3)):
        at, other = (8 + 8 * rng.randrange(words) for _ in range(2))
        what = rng.randrange(4)
        if what == 0:
            changed[at + rng.randrange(8)] ^= 1 << rng.randrange(8)
        elif what == 1:
            changed[at + rng.randrange(8)] = rng.randrange(256)
        else:
            changed[at:at + 8] = bytes(8) if what == 2 else changed[other:other + 8]
    return bytes(changed)


def every(of, them):
    """What a function returns for each of them, which calls other programs."""
    with multiprocessing.pool.ThreadPool() as pool:
        return pool.map(of, them)


class Difference(Exception):
    """Two values that differ: where, and what they are."""


class Compared:
    """Compares what a program printed with what `capnp decode` prints, and counts the fields."""

    def __init__(self, schema, keeps_null):
        self.schema, self.fields = schema, 0
        # whether a struct or a list with a default value is printed as null if its pointer is null
        self.keeps_null = keeps_null
        # how many default values this is in
        self.defaults = 0

    def number(self, of, ours, theirs, where):
        what = kind(of)
        self.fields += 1
        if what == 'enum':
            names = [name_of(it) for it in self.schema.declared(of)['enum']['enumerants']]
            same = ours == (str(names.index(theirs)) if theirs in names else theirs)
        elif what.startswith('float'):
            # `capnp decode` prints as many digits as it takes, but old versions of it at most 8 of a Float32
            form, size = ('<f', 4) if what == 'float32' else ('<d', 8)
            ours, theirs = struct.unpack(form, int(ours).to_bytes(size, 'little'))[0], float(theirs)
            same = ours == struct.unpack(form, struct.pack(form, theirs))[0] or what == 'float32' and float(f'{ours:.8g}') == theirs
            same |= ours != ours and theirs != theirs
        else:
            same = ours == theirs
        if not same:
            raise Difference(where, ours, theirs)

    def value(self, of, ours, theirs, where):
        what = kind(of)
        if what == 'void':
            return
        if what in BITS:
            self.number(of, ours, theirs, where)
        elif what in ('text', 'data'):
            self.fields += 1
            if bytes(map(int, ours)) != unquoted(theirs):
                raise Difference(where, ours, theirs)
        elif what == 'struct':
            self.struct(self.schema.declared(of), ours, theirs, where)
        elif what == 'list':
            if len(ours) != len(theirs):
                raise Difference(where, ours, theirs)
            for i, (one, other) in enumerate(zip(ours, theirs)):
                self.value(of['list']['elementType'], one, other, f'{where}[{i}]')

    def struct(self, node, ours, theirs, where):
        if ours == 'deep' and self.defaults:
            return
        for field in node['fields']:
            name = name_of(field)
            there = f'{where}.{name}'
            if name not in theirs:
                self.unset(field, ours.get(name), there)
            elif name not in ours or ours[name] == 'null':
                raise Difference(there, ours.get(name), theirs[name])
            elif 'group' in field:
                self.struct(self.schema.nodes[field['group']['typeId']], ours[name], theirs[name], there)
            else:
                self.value(field['slot']['type'], ours[name], theirs[name], there)

    def unset(self, field, ours, where):
        """A field that `capnp decode` doesn't print: a null pointer, or a member that isn't set."""
        if ours is None or 'group' in field:
            return
        what = kind(field['slot']['type'])
        if has_default(field) and self.keeps_null:
            if ours != 'null':
                raise Difference(where, ours, 'null')
        elif has_default(field):
            self.defaults += 1
            self.value(field['slot']['type'], ours, self.schema.default(name_of(field)), where)
            self.defaults -= 1
        elif what in ('text', 'data'):
            if bytes(map(int, ours)) != unquoted(field['slot']['defaultValue'].get(what, '""')):
                raise Difference(where, ours, 'the default value')
        elif what in BITS or ours != 'null' and field['discriminantValue'] == NO_DISCRIMINANT:
            raise Difference(where, ours, 'nothing')


def compared(schema, roots, ours, theirs, keeps_null=False):
    """The numbers of messages and of fields that are the same, and the first difference or None. The messages are texts, and their
    roots these structs in turn."""
    compare = Compared(schema, keeps_null)
    if len(ours) != len(theirs):
        return 0, 0, f'{len(ours)} messages instead of {len(theirs)}'
    for i, (one, other) in enumerate(zip(ours, theirs)):
        try:
            compare.struct(schema.find(roots[i % len(roots)]), parsed(one), parsed(other), f'message {i}')
        except Difference as found:
            return i, compare.fields, ' '.join(map(str, found.args))
    return len(ours), compare.fields, None
