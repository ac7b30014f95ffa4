"""Translates a function to C."""
import re

from reading import UNCOUNTED, ZERO, Line, Names, Unknown, bits, c_type, declared, laid_out, size_of, suffix

BINARY = {'add': '+', 'sub': '-', 'mul': '*', 'udiv': '/', 'urem': '%', 'and': '&', 'or': '|', 'xor': '^'}
SIGNED = {'sdiv': '/', 'srem': '%'}
SHIFTS = {'shl': '<<', 'lshr': '>>', 'ashr': '>>'}
COMPARED = {'eq': '==', 'ne': '!=', 'lt': '<', 'le': '<=', 'gt': '>', 'ge': '>='}
# Intrinsics: those that move or set blocks of memory, and functions of numbers, each with its number of arguments.
BLOCKS = 'memset.p0.i64', 'memmove.p0.p0.i64', 'memcpy.p0.p0.i64'
NUMBERS = {'abs': 1, 'ctpop': 1, 'cttz': 1, 'ctlz': 1, 'bswap': 1, 'umin': 2, 'umax': 2, 'smin': 2, 'smax': 2, 'uadd.sat': 2, 'usub.sat': 2, 'fshl': 3, 'fshr': 3}
# One of two constant numbers: what `do_select` writes.
EITHER = re.compile(r'\((\(.*\)) \? (\d+ull) : (\d+ull)\)')
# The size of the largest block that is moved by reading all of it before writing any.
MOVED = 64


def away(pointer, by):
    """The place `by` bytes away, which may be outside of the pointer's object: C computes it as a number."""
    return f'away({pointer}, {by})'


def offset(pointer, by):
    """The place `by` bytes away, inside the pointer's object."""
    found = re.fullmatch(r'\((\w+) \+ (\d+)\)', pointer)
    if found and by > 0:
        return offset(found[1], int(found[2]) + by)
    return f'({pointer} {"-" if by < 0 else "+"} {abs(by)})' if by else pointer


class Writer:
    """Writes a function. `waiting` has the C of values that are written where they are used, and whether they read memory. Such a value
    is used once, and is removed then."""

    def __init__(self, function):
        self.function, self.module, self.names = function, function.module, function.names
        self.out, self.top, self.targets, self.waiting = [], [], set(), {}
        self.slot, self.labels = {}, Names(function.label_tags())
        # the values that have a variable, and those whose variable is read
        self.having, self.asked = {name for _, name in function.signature.parameters}, set()
        self.label = self.following = None

    def text(self):
        head = self.heading()
        self.declare_slots()
        labels = list(self.function.blocks)
        for label, following in zip(labels, [*labels[1:], None]):
            self.label, self.following = label, following
            self.out.append((label, None))
            for line in self.function.blocks[label]:
                try:
                    self.instruction(Line(line))
                except Unknown as error:
                    raise Unknown(f'{error}: {line}') from None
            if self.waiting:
                raise Unknown(f'{[*self.waiting]} wait after the end of their block')
        if self.asked - self.having:
            raise Unknown(f'{[*self.asked - self.having]} are read, and have no variable')
        body = [f'    {line}' if line else f'{self.label_name(label)}:;' for label, line in self.out if line or label in self.targets]
        return '\n'.join([*head, *(f'    {it}' for it in self.top), *body, '}'])

    def label_name(self, label):
        return f'l_{self.labels(f"%{label}")}'

    def heading(self):
        it = self.function.signature
        if it.name == 'main':
            self.module.is_program = True
            # which aren't passed
            self.having.clear()
            self.top.append('keep_arguments(count, words);')
            return ['int main(int count, char **words)', '{']
        if it.is_internal:
            return [f'/* {shown(it.name)} */', it.text(self.names), '{']
        if it.name not in self.module.exported:
            raise Unknown('an exported function that the header does not declare')
        result, words = self.module.exported[it.name]
        given = [] if words == 'void' else [re.search(r'(\w+)(?:\[\d+\])?$', word.strip())[1] for word in words.split(',')]
        if len(given) != len(it.parameters):
            raise Unknown('the header gives other parameters')
        for name in given:
            self.names.give(f'={name}', name)
        for (kind, name), word in zip(it.parameters, given):
            is_used = self.function.uses[name] > 0
            self.top.append(f'{declared(kind, self.names(name))} = ({c_type(kind)}){word};' if is_used else f'(void){word};')
        return [f'{result} {it.name}({words})', '{']

    def declare_slots(self):
        for number, slot in enumerate(self.function.slots):
            sizes, aligns = zip(*(self.function.locals[name] for name in slot))
            name = self.names(f'%slot!{number}')
            self.slot.update(dict.fromkeys(slot, name))
            self.top.append(f'A({max(aligns)}) u8 {name}[{max(*sizes, 1)}];')

    # Writing.
    def emit(self, line):
        self.out.append((None, line))

    def settle(self):
        """Evaluates the waiting values that read memory, because memory is written next."""
        for name in [name for name, (_, _, reads) in self.waiting.items() if reads]:
            kind, text, _ = self.waiting.pop(name)
            self.assign(name, kind, text)

    def assign(self, name, kind, text):
        if self.function.places[name] == {self.label}:
            self.having.add(name)
            return self.emit(f'{declared(kind, self.names(name))} = {text};')
        self.variable(name, kind)
        return self.emit(f'{self.names(name)} = {text};')

    def variable(self, name, kind):
        """Declares the variable of a value at the top of the function."""
        self.having.add(name)
        self.top.append(f'{declared(kind, self.names(name))};')

    def define(self, name, kind, text, reads=False):
        self.module.needs(kind)
        uses = self.function.uses[name]
        if uses == 1 and self.function.places[name] == {self.label} and len(text) < 400:
            self.waiting[name] = kind, text, reads
        elif uses:
            self.assign(name, kind, text)

    # Reading.
    def get(self, kind, value):
        """The C of a value, and whether it reads memory."""
        self.module.needs(kind)
        if isinstance(value, tuple) and value[0] == 'pointer':
            return f'((u8 *)(uptr){constant("i64", value[1])})', False
        if isinstance(value, tuple):
            address, _ = self.get('ptr', value[1])
            return (offset(address, value[2]) if value[0] == 'address' else f'(u64)(uptr){address}'), False
        if isinstance(value, list):
            if kind[0] != 'struct':
                raise Unknown('an array of constants')
            parts = [self.get(*it)[0] for it in zip(kind[1], value)]
            return f'({c_type(kind)}){{ {", ".join(parts)} }}', False
        if value in self.slot:
            return self.slot[value], False
        if value[0] == '%':
            if value in self.waiting:
                return self.waiting.pop(value)[1:]
            self.asked.add(value)
            return self.names(value), False
        if value[0] == '@':
            return f'((u8 *){self.module.names(value)})', False
        return constant(kind, value), False

    def loaded(self, kind, pointer):
        if kind[0] == 'vector':
            return f'ldv{kind[1]}({pointer})'
        if kind[0] == 'struct':
            return f'({c_type(kind)}){{ {", ".join(self.loaded(it, offset(pointer, at)) for at, it in laid_out(kind))} }}'
        return f'ld{suffix(kind)}({pointer})'

    # Instructions.
    def instruction(self, it):
        name = None
        if it.peek()[0] == '%':
            name = it.next()
            it.next('=')
        it.takes('tail')
        word = it.next()
        if word in BINARY or word in SIGNED or word in SHIFTS:
            return self.counted(it, name, word)
        do = getattr(self, f'do_{word}', None)
        if do is None:
            raise Unknown('instruction')
        return do(it, name)

    def pair(self, it):
        """The operands of an instruction over two values of one type."""
        it.skip_promises()
        kind, left = it.typed()
        it.next(',')
        right = it.value()
        it.end()
        (a, reads_a), (b, reads_b) = self.get(kind, left), self.get(kind, right)
        return kind, a, b, reads_a or reads_b

    def counted(self, it, name, word):
        kind, a, b, reads = self.pair(it)
        if kind[0] == 'vector' and word in ('and', 'or', 'xor'):
            return self.define(name, kind, f'({a} {BINARY[word]} {b})', reads)
        if kind in UNCOUNTED and word in ('shl', 'lshr', 'mul'):
            # A table of few bytes that is kept in such a number. It is in a `u64`, whose other bits are zero; a number that
            # is written out may be shorter in C.
            a = f'(u64){a}' if a[0].isdigit() else a
            cut = '' if word == 'lshr' else f' & {hex((1 << bits(kind)) - 1)}ull'
            by = f'* {b}' if word == 'mul' else f'{SHIFTS[word]} ({b} & 63u)'
            return self.define(name, kind, f'(({a} {by}){cut})', reads)
        if kind in UNCOUNTED and word in ('and', 'or', 'xor'):
            return self.define(name, kind, f'({a} {BINARY[word]} {b})', reads)
        if not bits(kind) or kind in UNCOUNTED or kind == 'i1' and word not in ('and', 'or', 'xor'):
            raise Unknown('arithmetic')
        if kind == 'i1':
            return self.define(name, kind, f'(u8)((u8){a} {BINARY[word]} (u8){b})', reads)
        to, signed = f'({c_type(kind)})', f'(i{bits(kind)})'
        # C makes a number that is shorter than `int` an `int`, whose product and shift to the left could overflow.
        wide = f'(u32){a}' if bits(kind) < 32 else a
        if word in SHIFTS:
            # A shift by the width or more has any result in the module, but isn't defined in C: shift by less.
            b = b if b.rstrip('ul').isdigit() and int(b.rstrip('ul')) < bits(kind) else f'({b} & {bits(kind) - 1}u)'
            return self.define(name, kind, f'{to}({f"{signed}{a}" if word == "ashr" else wide} {SHIFTS[word]} {b})', reads)
        if word in SIGNED:
            return self.define(name, kind, f'{to}({signed}{a} {SIGNED[word]} {signed}{b})', reads)
        text = f'({wide if word == "mul" else a} {BINARY[word]} {b})'
        return self.define(name, kind, text if bits(kind) >= 32 else to + text, reads)

    def do_icmp(self, it, name):
        it.takes('samesign')
        how = it.next()
        kind, a, b, reads = self.pair(it)
        sign = COMPARED[how if how in COMPARED else how[1:]]
        is_signed = how[0] == 's'
        if kind[0] == 'vector':
            cast = f'(w{kind[1]})' if is_signed else ''
            return self.define(name, (*kind[:2], 'i1'), f'(v{kind[1]})({cast}{a} {sign} {cast}{b})', reads)
        if is_signed and kind in (*UNCOUNTED, 'i1', 'ptr'):
            raise Unknown('a comparison')
        cast = '(uptr)' if kind == 'ptr' else f'(i{bits(kind)})' if is_signed else ''
        return self.define(name, 'i1', f'({cast}{a} {sign} {cast}{b})', reads)

    def cast(self, it):
        it.skip_promises()
        kind, value = it.typed()
        it.next('to')
        to = it.type()
        it.end()
        if 'vector' in (kind[0], to[0]) and (kind[0], to) != ('vector', ('vector', kind[1], 'i8')):
            raise Unknown('a cast of vectors')
        return kind, to, *self.get(kind, value)

    def do_zext(self, it, name):
        _, to, text, reads = self.cast(it)
        if to[0] == 'vector':
            raise Unknown('a cast of vectors')
        self.define(name, to, f'({c_type(to)}){text}', reads)

    def do_sext(self, it, name):
        kind, to, text, reads = self.cast(it)
        if kind in UNCOUNTED or to in UNCOUNTED:
            raise Unknown('a cast')
        if to[0] == 'vector':
            # a mask has one byte for each bit
            return self.define(name, to, text, reads)
        if kind == 'i1':
            return self.define(name, to, f'({c_type(to)})(0 - ({c_type(to)}){text})', reads)
        return self.define(name, to, f'({c_type(to)})(i{bits(to)})(i{bits(kind)}){text}', reads)

    def do_trunc(self, it, name):
        kind, to, text, reads = self.cast(it)
        if not bits(kind):
            raise Unknown('a cast of vectors')
        if to in UNCOUNTED:
            return self.define(name, to, f'((u64){text} & {hex((1 << bits(to)) - 1)}ull)', reads)
        self.define(name, to, f'(u8)({text} & 1)' if to == 'i1' else f'({c_type(to)}){text}', reads)

    def do_ptrtoaddr(self, it, name):
        _, to, text, reads = self.cast(it)
        if to in UNCOUNTED:
            raise Unknown('a cast')
        self.define(name, to, f'({c_type(to)})(uptr){text}', reads)

    do_ptrtoint = do_ptrtoaddr

    def do_inttoptr(self, it, name):
        kind, to, text, reads = self.cast(it)
        if kind != 'i64':
            raise Unknown('an address that is not of 64 bits')
        self.define(name, to, f'((u8 *)(uptr){text})', reads)

    def do_bitcast(self, it, name):
        kind, value = it.typed()
        it.next('to')
        to = it.type()
        it.end()
        text, reads = self.get(kind, value)
        if kind in (('vector', 8, 'i1'), ('vector', 16, 'i1')) and to == f'i{kind[1]}':
            return self.define(name, to, f'mask{kind[1]}({text})', reads)
        if kind == 'i64' and to == ('vector', 8, 'i8'):
            return self.define(name, to, f'v8_of({text})', reads)
        raise Unknown('cast')

    def do_freeze(self, it, name):
        kind, value = it.typed()
        it.end()
        text, reads = self.get(kind, value)
        self.define(name, kind, text, reads)

    def do_select(self, it, name):
        when = it.typed()
        it.next(',')
        yes = it.typed()
        it.next(',')
        no = it.typed()
        it.end()
        if when[0] != 'i1' or yes[0] != no[0]:
            raise Unknown('a choice by a vector of bits')
        found = [self.get(*part) for part in (when, yes, no)]
        (a, _), (b, _), (c, _) = found
        if yes[0] in UNCOUNTED and b[0].isdigit() and c[0].isdigit():
            # two numbers that are written out may be shorter in C than the `u64` that such a number is in
            b = f'(u64){b}'
        self.define(name, yes[0], f'({a} ? {b} : {c})', any(reads for _, reads in found))

    def do_shufflevector(self, it, name):
        kind, value = it.typed()
        it.next(',')
        it.typed()
        it.next(',')
        numbers = [int(number) for number in it.typed()[1]]
        it.end()
        if kind != ('vector', 64, 'i8') or numbers != list(range(numbers[0], numbers[0] + 16)) or numbers[-1] >= 64:
            raise Unknown('shuffle')
        text, reads = self.get(kind, value)
        self.define(name, ('vector', 16, 'i8'), f'part16_of_64({text}, {numbers[0]})', reads)

    def do_alloca(self, it, name):
        if self.label != next(iter(self.function.blocks)):
            raise Unknown('a local that is made late')

    def do_getelementptr(self, it, name):
        is_inside = it.peek() == 'inbounds'
        it.skip_promises()
        step, _ = size_of(it.type())
        it.next(',')
        kind, base = it.typed()
        it.next(',')
        by, index = it.typed()
        it.end()
        if by != 'i64':
            raise Unknown('an offset that is not of 64 bits')
        text, reads = self.get(kind, base)
        if re.fullmatch(r'-?\d+', index):
            bytes_ = step * int(index)
            is_inside |= 0 <= bytes_ <= self.function.locals.get(base, (-1,))[0]
            return self.define(name, 'ptr', offset(text, bytes_) if is_inside else away(text, constant(by, str(bytes_))), reads)
        # a place that another block reads may be computed before the test of its index
        is_inside &= self.function.places[name] <= {self.label}
        more, further = self.get(by, index)
        more = f'{step} * {more}' if step > 1 else more
        # one of two pointers, which compilers choose in fewer instructions than one of two distances
        if (either := EITHER.fullmatch(more)) and not is_inside and re.fullmatch(r'\w+', text):
            condition, one, other = either.groups()
            return self.define(name, 'ptr', f'({condition} ? {away(text, one)} : {away(text, other)})', reads or further)
        self.define(name, 'ptr', f'({text} + (i64)({more}))' if is_inside else away(text, more), reads or further)

    def do_load(self, it, name):
        kind = it.type()
        it.next(',')
        pointer, _ = self.get(*it.typed())
        it.end()
        if kind[0] == 'struct' and not pointer.isidentifier():
            at = self.names(f'{name}!at')
            self.emit(f'u8 *{at} = {pointer};')
            pointer = at
        self.define(name, kind, self.loaded(kind, pointer), True)

    def do_store(self, it, _):
        kind, value = it.typed()
        it.next(',')
        at, where = it.typed()
        it.end()
        if kind[0] == 'struct':
            raise Unknown('a struct that is written')
        (text, _), (pointer, _) = self.get(kind, value), self.get(at, where)
        self.settle()
        if kind == ('vector', 8, 'i1'):
            return self.emit(f'st8({pointer}, mask8({text}));')
        if kind[0] == 'vector':
            return self.store_bytes(kind[1], pointer, text)
        return self.emit(f'st{suffix(kind)}({pointer}, {text});')

    def store_bytes(self, count, pointer, text):
        """Most vectors are only moved, or zero: then the C has no vectors."""
        moved = re.fullmatch(rf'ldv{count}\((.*)\)', text)
        if moved and is_bracketed(f'({moved[1]})'):
            self.module.moves.add(count)
            return self.emit(f'mv{count}({pointer}, {moved[1]});')
        if text == f'(v{count}){{ 0 }}':
            return self.emit(f'memset({pointer}, 0, {count});')
        return self.emit(f'stv{count}({pointer}, {text});')

    def do_extractvalue(self, it, name):
        kind, value = it.typed()
        it.next(',')
        number = int(it.next())
        it.end()
        text, reads = self.get(kind, value)
        # a literal has commas, which would separate the arguments of a macro
        self.define(name, kind[1][number], f'{text if text.isidentifier() else f"({text})"}.f{number}', reads)

    def do_insertvalue(self, it, name):
        kind, value = it.typed()
        it.next(',')
        part, given = it.typed()
        it.next(',')
        number = int(it.next())
        it.end()
        (whole, _), (text, _) = self.get(kind, value), self.get(part, given)
        self.module.needs(kind)
        if self.function.uses[name]:
            self.assign(name, kind, whole)
            self.emit(f'{self.names(name)}.f{number} = {text};')

    def do_call(self, it, name):
        it.skip_promises()
        result = it.type()
        it.skip_parameters()
        called = it.next()
        it.next('(')
        words = []
        while not it.takes(')'):
            words.append(it.typed())
            it.takes(',')
        it.end()
        if called[0] != '@':
            raise Unknown('a call by address')
        if called.startswith('@llvm.'):
            return self.intrinsic(name, result, called[6:], words)
        given = ', '.join(self.get(*word)[0] for word in words)
        self.settle()
        text = f'{self.module.names(called)}({given})'
        self.module.needs(result)
        return self.assign(name, result, text) if name and self.function.uses[name] else self.emit(f'{text};')

    def intrinsic(self, name, result, which, words):
        if which == 'trap':
            return self.emit('TRAP();')
        if which in ('lifetime.start.p0', 'lifetime.end.p0'):
            return None
        if which in BLOCKS:
            return self.block(which.partition('.')[0], words)
        found = [self.get(*word) for word in words]
        given, reads = [text for text, _ in found], any(reads for _, reads in found)
        simple = re.fullmatch(r'([a-z.]+)\.i(8|16|32|64)', which)
        if simple and simple[1] in NUMBERS and which != 'bswap.i8':
            text = ', '.join(given[:NUMBERS[simple[1]]])
            return self.define(name, result, f'{simple[1].replace(".", "_")}{simple[2]}({text})', reads)
        if which == 'umul.with.overflow.i32':
            # the product, and whether it needs more bits
            product = f'(u64){given[0]} * {given[1]}'
            self.module.needs(result)
            return self.define(name, result, f'({c_type(result)}){{ (u32)({product}), (u8)({product} >> 32 != 0) }}', reads)
        if which == 'umul.with.overflow.i64':
            return self.define(name, result, f'({c_type(result)}){{ {given[0]} * {given[1]}, overflows({given[0]}, {given[1]}) }}', reads)
        joined = re.fullmatch(r'vector\.reduce\.or\.v(8|16|32|64)i8', which)
        if joined:
            return self.define(name, result, f'any{joined[1]}({given[0]})', reads)
        raise Unknown(f'intrinsic {which}')

    def block(self, which, words):
        if words[3][1] != 'false':
            raise Unknown('volatile')
        (to, _), (what, _), (count, _) = (self.get(*word) for word in words[:3])
        self.settle()
        size = int(words[2][1]) if words[2][1].isdigit() else None
        if which != 'memset' and size and size <= MOVED:
            self.module.moves.add(size)
            return self.emit(f'mv{size}({to}, {what});')
        if size is None:
            # C forbids a null pointer even with a count of 0; the module may have that
            return self.emit(f'{which}_or_none({to}, {what}, {count});')
        return self.emit(f'{which}({to}, {what}, {size});') if size else None

    # Jumps.
    def do_phi(self, _, name):
        for it, kind, _ in self.function.choices[self.label]:
            if it == name and self.function.uses[name]:
                self.module.needs(kind)
                self.variable(name, kind)

    def on_the_way(self, label):
        """The lines that set the variables of a block's `phi`s, before a jump to it from this block."""
        found = []
        for name, kind, values in self.function.choices[label]:
            text, _ = self.get(kind, values[self.label])
            if self.function.uses[name] and text != self.names(name):
                found.append((kind, self.names(name), text))
        names = {name for _, name, _ in found}
        if not any(names & {*re.findall(r'\w+', text)} for _, _, text in found):
            return [f'{name} = {text};' for _, name, text in found]
        # a variable may be set to the old value of another one
        after = {name: self.names(f'%{name}!{self.label}!{label}') for _, name, _ in found}
        return [f'{declared(kind, after[name])} = {text};' for kind, name, text in found] + [f'{name} = {after[name]};' for _, name, _ in found]

    def jump(self, label, when=''):
        """Jumps to a block, always or after `when`: a condition, or an arm of a switch."""
        lines = self.on_the_way(label)
        if not when:
            for line in lines:
                self.emit(line)
            if label == self.following:
                return
        self.targets.add(label)
        go = f'goto {self.label_name(label)};'
        self.emit(f'{when} {{ {" ".join([*lines, go])} }}' if when and lines else f'{when} {go}'.strip())

    def do_br(self, it, _):
        if it.peek() == 'label':
            label = it.label()
            it.end()
            return self.jump(label)
        text, _ = self.get(*it.typed())
        it.next(',')
        yes, _, no = it.label(), it.next(','), it.label()
        it.end()
        if yes == self.following and not self.function.choices[yes]:
            return self.jump(no, f'if (!{text})')
        self.jump(yes, f'if {text}' if is_bracketed(text) else f'if ({text})')
        return self.jump(no)

    def do_switch(self, it, _):
        kind, value = it.typed()
        it.next(',')
        other = it.label()
        it.next('[')
        text, _ = self.get(kind, value)
        self.emit(f'switch ({text}) {{')
        while not it.takes(']'):
            number = constant(*it.typed())
            it.next(',')
            self.jump(it.label(), f'case {number}:')
        it.end()
        self.jump(other, 'default:')
        self.emit('}')

    def do_ret(self, it, _):
        kind = it.type()
        if kind == 'void':
            return self.emit('return;')
        it.skip_promises()
        text, _ = self.get(kind, it.value())
        it.end()
        return self.emit(f'return {text};')

    def do_unreachable(self, it, _):
        it.end()
        self.emit('UNREACHABLE();')


def constant(kind, value):
    if kind == 'ptr' and value in ('null', *ZERO):
        return '((u8 *)0)'
    if bits(kind):
        number = {'true': 1, 'false': 0, **dict.fromkeys(ZERO, 0)}.get(value)
        number = (int(value) if number is None else number) % (1 << bits(kind))
        return (str(number) if number < 1 << 16 else hex(number)) + ('u' if bits(kind) < 64 else 'ull')
    if value in ZERO and kind[0] in ('vector', 'struct'):
        return f'({c_type(kind)}){{ 0 }}'
    raise Unknown(f'constant {value}')


def is_bracketed(text):
    """Whether the bracket at the start of a text is closed at its end."""
    depth = 0
    for at, it in enumerate(text):
        depth += (it == '(') - (it == ')')
        if not depth:
            return at > 0 and at == len(text) - 1
    return False


def shown(name):
    """A name of the module for a comment."""
    return re.sub(r'\*/|/\*', '..', name[:1000])
