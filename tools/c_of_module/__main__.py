"""Translates the text of an LLVM module to C, for gcc and clang.

    c_of_module MODULE.ll HEADER
    c_of_module MODULE.ll HEADER FOLDER NAME PART=CRATE..

HEADER declares the functions that the module exports. The C file includes it, so the C compiler compares the two.
Nothing is guessed: anything unknown ends the run, and the line where it occurs is printed.

The first form prints one file. The second form writes a program in several files, which can be compiled side by side:
FOLDER/NAME_PART.c has the functions of a crate, or of a module of a crate (CRATE::MODULE), or, with `PART=`, of all crates
that aren't named; FOLDER/NAME.c has those of `=CRATE` and what is left; FOLDER/NAME.h has what all of them share.

How LLVM becomes C:

- An integer of N bits is an unsigned one. Results of arithmetic are cast back to N bits. A pointer is an `u8 *`.
- Memory is read and written by `ld64`, `st64` and the like, which take any address and may alias everything.
- A block is a label. Locals are arrays of bytes; locals that aren't in use at the same time may share one.
- A value has a variable, or its expression is written where it is used. The latter only if it is used once, in its own
  block, and reads no memory that is written in between.
- A `phi` chooses a value by the block from which control comes. Its variable is set in each of these blocks, before the
  jump.
"""
import pathlib
import re
import sys

from functions import Function, Signature
from reading import ZERO, Line, Names, Unknown, bits, c_type, declared, struct_name
from writing import offset

ABOUT = '''/* This file is generated: don't edit it. It is the compiled form of the repository's proved sources, translated to C by
 * tools/c_of_module. docs/PROVED.md says what you have to trust. */'''
# Structs that runtime.h declares.
STRUCTS_OUTSIDE = {'s_i64_i64'}
# The arguments of a program, which program.h declares.
KEPT = 'struct arguments arguments;'
# What module.h asks for on a machine of 32 bits: the structs of a header that names it have 8 bytes for each pointer and size.
SLOTS = 'CAPNP_CANONICAL_SLOTS_OF_8'
# There C makes a size shorter when it passes one to memcpy, for example.
NARROWED = '''#if __SIZEOF_POINTER__ == 4
#pragma GCC diagnostic ignored "-Wconversion"
#endif'''
# C promises to read lines and texts of this many characters.
LONGEST = 4095


class Module:
    def __init__(self, text, header, header_name):
        self.header_name = header_name
        self.has_slots = SLOTS in header
        self.names, self.structs, self.moves = Names(), {}, set()
        self.statics, self.functions = [], []
        self.attributes = dict(re.findall(r'(?m)^attributes (#\d+) = \{ (.*) \}$', text))
        self.exported = {name: (result, words) for result, name, words in re.findall(r'(?m)^([a-z]\w*) (\w+)\(([^)]*)\);', header)}
        self.is_program = False
        self.read(text)

    def read(self, text):
        lines = iter(enumerate(text.split('\n'), 1))
        for number, line in lines:
            try:
                if line.startswith('define '):
                    body = []
                    for _, below in lines:
                        if below == '}':
                            break
                        body.append(below)
                    self.functions.append(Function(self, line, body))
                elif line.startswith('declare '):
                    Signature(self, line)
                elif line.startswith('@'):
                    self.statics.append(self.static(line))
                elif line and not line.startswith((';', 'source_filename', 'target ', 'attributes ', '!')):
                    raise Unknown('line')
            except Unknown as error:
                sys.exit(f'line {number}: {error}: {line}')

    def needs(self, kind):
        if kind[0] == 'struct':
            self.structs[struct_name(kind)] = kind

    def static(self, line):
        it = Line(line)
        name = self.names(it.next())
        it.next('=')
        it.skip_promises()
        it.next('constant')
        if it.takes('<'):
            return self.record(it, name)
        kind = it.type()
        if kind[0] != 'array':
            raise Unknown('a constant that is no array')
        _, count, of = kind
        if of == 'i8':
            value = it.next()
            it.end()
            return f'static const u8 {name}[{max(count, 1)}] = {text_of(value, count)};'
        values = it.value()
        it.end()
        # nothing reads a value that is poison
        zero = '0u' if bits(of) else '{ 0 }'
        shown = [zero if it in ZERO else f'{int(it) % (1 << bits(of))}u' if bits(of) else f'PLACE((const u8 *){self.names(it)})' for it in values]
        kind = 'const struct place' if of == 'ptr' else f'const {c_type(of)}'
        return f'static {kind} {name}[{count}] = {{ {", ".join(shown)} }};'

    def record(self, it, name):
        """A constant with parts of several types, pointers and bytes. Each pointer is at a multiple of 8, so C puts nothing between
        them."""
        kinds = it.listed(it.type)
        it.next('<')
        parts = it.listed(lambda: (it.type(), it.part()))
        it.end()
        fields, values, at = [], [], 0
        for number, (kind, value) in enumerate(parts):
            if kind == 'ptr' and at % 8 == 0:
                _, base, by = value if value[0] == 'address' else (None, value, 0)
                fields.append(f'struct place p{number};')
                values.append(f'PLACE((const u8 *){self.names(base)} + {by})')
            elif kind[0] == 'array' and kind[2] == 'i8':
                fields.append(f'u8 p{number}[{kind[1]}];')
                values.append(text_of(value, kind[1]))
            else:
                raise Unknown(f'a part {kind} of a constant')
            at += 8 if kind == 'ptr' else kind[1]
        if kinds != [kind for kind, _ in parts]:
            raise Unknown('parts of other types')
        return f'static const struct {{ {" ".join(fields)} }} {name}[1] = {{ {{ {", ".join(values)} }} }};'

    def shared(self, written):
        """What comes before the functions, and is the same in each file of a program: types, helpers and constants."""
        is_library = any(not it.signature.is_internal and it.signature.name != 'main' for it in self.functions)
        if self.is_program:
            yield '#define _POSIX_C_SOURCE 200809L'
            yield from (f'#include <{it}.h>' for it in ('errno', 'fcntl', 'signal', 'unistd'))
        yield from [f'#define {SLOTS}', NARROWED] * self.has_slots
        has_vectors = re.search(r'\b(ldv|stv|any|mask)', written)
        has_runtime = re.search(r'\b(rattle|c)_', written)
        has_products = re.search(r'\boverflows\b', written)
        has_folders = re.search(r'\bc_(mkdir|statx)\b', written)
        has_clocks = re.search(r'\bc_(isatty|clock_gettime)\b', written)
        parts = {
            'module': True, 'vectors': has_vectors, 'products': has_products, 'runtime': has_runtime, 'program': self.is_program,
            'folders': has_folders, 'clocks': has_clocks,
        }
        for part in (name for name, is_needed in parts.items() if is_needed):
            yield '\n' + (pathlib.Path(__file__).parent / f'{part}.h').read_text(encoding='utf-8').rstrip('\n')
        yield from ['', f'#include "{self.header_name}"'] * is_library
        yield ''
        for name in sorted(self.structs.keys() - (STRUCTS_OUTSIDE if has_runtime else set())):
            fields = ' '.join(f'{declared(it, f"f{number}")};' for number, it in enumerate(self.structs[name][1]))
            yield f'struct {name} {{ {fields} }};'
        yield from ('', '/* mvN moves N bytes between places that may overlap. */', *map(move, sorted(self.moves)), '', *self.statics, '')

    def text(self):
        written = '\n\n'.join(it.text() for it in self.functions)
        yield ABOUT
        yield from self.shared(written)
        yield from [KEPT] * self.is_program
        yield from (f'{it.signature.text(Names())};' for it in self.functions if it.signature.is_internal)
        yield '\n' + written

    def texts(self, name, parts):
        """The lines of each file of a program, by the file's name. `parts` has the part of each crate or module of a crate. A
        function that another file calls isn't static."""
        bodies = {it: it.text() for it in self.functions}
        of = {it: part_of(it.signature.name, parts) for it in bodies}
        symbols = {self.names(it.signature.symbol): it for it in bodies if it.signature.is_internal}
        for it, body in bodies.items():
            for called in {*re.findall(r'\w+', body)} & {*symbols}:
                symbols[called].signature.is_shared |= of[symbols[called]] != of[it]
        shared = [it for it in symbols.values() if it.signature.is_shared]
        yield f'{name}.h', [ABOUT, *self.shared('\n'.join(bodies.values())), *(f'{it.signature.text(Names())};' for it in shared)]
        for part in sorted({'', *of.values()}):
            here = [it for it in bodies if of[it] == part]
            alone = [f'{it.signature.text(Names())};' for it in here if it.signature.is_internal and not it.signature.is_shared]
            written = (re.sub('(?m)^static ', '', bodies[it], count=1) if it.signature.is_shared else bodies[it] for it in here)
            yield f'{name}_{part}.c' if part else f'{name}.c', [ABOUT, f'#include "{name}.h"', '', *[KEPT] * (not part), *alone, '', '\n\n'.join(written)]


def part_of(symbol, parts):
    """The part that a function belongs to: that of its module or crate, or else the one for all other crates."""
    crate, *rest = symbol.split('::')
    return next((parts[it] for it in ('::'.join([crate, *rest[:1]]), crate, '') if it in parts), '')


def text_of(value, count):
    """Bytes as a C initializer: a text if all of them are printable, otherwise numbers. Each line of a text is in quotes of its own."""
    if value in ZERO:
        return '{ 0 }'
    data = re.sub(rb'\\(\\|[0-9A-Fa-f]{2})', lambda hit: hit[1] if hit[1] == b'\\' else bytes([int(hit[1], 16)]), value[2:-1].encode('latin-1'))
    if len(data) != count:
        raise Unknown(f'{len(data)} bytes in an array of {count}')
    if count > LONGEST or not all(32 <= it < 127 or it == 10 for it in data):
        return '{ ' + ', '.join(map(str, data)) + ' }'
    lines = re.findall(r'[^\n]{1,1000}\n?|\n', data.decode()) or ['']
    shown = (re.sub(r'([\\"?])', r'\\\1', it).replace('\n', '\\n') for it in lines)
    return '\n    '.join(f'"{it}"' for it in shown)


def broken(line):
    """The lines of a line that is longer than C promises to read, or the line itself. One with a text is never longer."""
    while len(line) > LONGEST:
        at = line.rfind(' ', 8, LONGEST)
        if at < 0:
            sys.exit(f'a line without a space: {line[:80]}')
        yield line[:at]
        line = ' ' * 8 + line[at + 1:]
    yield line


def move(size):
    """A function that moves `size` bytes: it reads all of them before it writes any."""
    at, loads, stores = 0, [], []
    for width in 8, 4, 2, 1:
        while size - at >= width:
            loads.append(f'u{8 * width} part{at} = ld{8 * width}({offset("from", at)});')
            stores.append(f'st{8 * width}({offset("to", at)}, part{at});')
            at += width
    return f'INLINE void mv{size}(u8 *to, const u8 *from) {{ {" ".join(loads + stores)} }}'


def main(words):
    if len(words) != 2 and len(words) < 4:
        sys.exit(__doc__)
    text, header = map(pathlib.Path, words[:2])
    module = Module(text.read_text(encoding='latin-1'), header.read_text(encoding='latin-1'), header.name)
    if len(words) == 2:
        return print('\n'.join(it for line in '\n'.join(module.text()).split('\n') for it in broken(line)))
    folder, name, *parts = words[2:]
    parts = {crate: part for part, _, crate in (it.partition('=') for it in parts)}
    for file, lines in module.texts(name, parts):
        text = '\n'.join(it for line in '\n'.join(lines).split('\n') for it in broken(line))
        (pathlib.Path(folder) / file).write_text(text + '\n', encoding='utf-8')


main(sys.argv[1:])
