"""Reads the functions of a module: their signatures, their blocks, where values are used, and which locals can share bytes."""
import re
import sys
from collections import Counter

from reading import PROMISES, Line, Names, Unknown, declared, size_of, tag_of
from writing import Writer

# Attributes of functions: those that are passed to the C compiler, under these names, and those that C can do without.
ADVICE = {'noinline': 'NEVER', 'cold': 'COLD'}
SILENT = {'alwaysinline', 'inlinehint', 'memory', 'mustprogress', 'nobuiltin', 'nofree', 'norecurse', 'nosync', 'nounwind', 'willreturn'}
# Functions that the module calls, and their names in runtime.h and program.h.
OUTSIDE = {
    **{name: name for name in ('rattle_alloc', 'rattle_realloc', 'rattle_dealloc', 'rattle_arg', 'rattle_arg_count', 'rattle_env',
                               'rattle_env_at', 'rattle_errno', 'rattle_set_errno')},
    **{name: f'c_{name}' for name in ('read', 'write', 'lseek', 'chdir', 'getcwd', 'open', 'close', 'mkdir', 'statx')},
    **{name: f'c_{name}' for name in ('isatty', 'clock_gettime')},
    '__sysv_signal': 'c_signal', '__xpg_strerror_r': 'c_strerror',
}

# A cast of a number, and the name of its result.
CAST = re.compile(r'(%(?:"[^"]*"|[-\w.$]+)) = (?:trunc|zext|sext) i\d+ %(?:"[^"]*"|[-\w.$]+) to i\d+$')


class Signature:
    def __init__(self, module, line):
        it = Line(line)
        self.module = module
        self.is_outside = it.next() == 'declare'
        self.is_internal = ' internal ' in line.partition('@')[0]
        # whether functions in other files call it
        self.is_shared = False
        it.skip_promises()
        self.result = it.type()
        symbol = it.next()
        self.name = symbol.strip('@"')
        it.next('(')
        self.parameters = []
        while not it.takes(')'):
            if self.is_outside and it.takes('...'):
                continue
            kind = it.type()
            it.skip_promises()
            self.parameters.append((kind, it.next() if it.peek()[0] == '%' else None))
            it.takes(',')
        self.advice = self.read_advice(it)
        for kind in self.result, *(kind for kind, _ in self.parameters):
            module.needs(kind)
        if self.is_outside and not self.name.startswith('llvm.'):
            if self.name not in OUTSIDE:
                raise Unknown(f'{self.name}, which runtime.h does not have')
            module.names.give(symbol, OUTSIDE[self.name])
        elif not self.is_outside and not self.is_internal:
            module.names.give(symbol, self.name)
        self.symbol = symbol

    def read_advice(self, it):
        said = ''
        while it.peek() not in (None, '{'):
            word = it.next()
            if word[0] == '#':
                said = self.module.attributes.get(word, '')
            elif word not in PROMISES:
                raise Unknown(f'{word} after a signature')
        words = {re.match(r'"|\w*', it)[0] for it in re.findall(r'"[^"]*"(?:="[^"]*")?|\w+(?:\([^)]*\))?', said)}
        if not self.name.startswith('llvm.') and words - {'"', *ADVICE, *SILENT}:
            raise Unknown(f'attributes {words}')
        return ''.join(f'{text} ' for word, text in ADVICE.items() if word in words)

    def text(self, names):
        words = ', '.join(declared(kind, names(name)) for kind, name in self.parameters)
        return f'{"" if self.is_shared else "static "}{self.advice}{declared(self.result, self.module.names(self.symbol))}({words or "void"})'


class Function:
    """A function: its signature, its blocks, and how often and where each value is used."""

    def __init__(self, module, line, body):
        self.module, self.signature = module, Signature(module, line)
        self.blocks = {}
        lines = []
        for text in body:
            label = re.match(r'("[^"]*"|[-\w.$]+):', text)
            if label:
                lines = self.blocks.setdefault(label[1].strip('"'), [])
            elif text.startswith('    ') or text == '  ]':
                # the arms of a switch
                lines[-1] += text
            elif text:
                lines.append(text.strip())
        # the blocks to which a block jumps, each as often as it does
        self.jumps = {label: [it.strip('"') for it in re.findall(r'label %("[^"]*"|[-\w.$]+)', lines[-1])] for label, lines in self.blocks.items()}
        self.choices = {label: [self.choice(line) for line in lines if ' = phi ' in line] for label, lines in self.blocks.items()}
        self.leave_unused_casts()
        self.names = Names(self.tags())
        self.locals = dict(self.local(Line(line)) for lines in self.blocks.values() for line in lines if ' = alloca ' in line)
        self.slots = self.shared()

    @staticmethod
    def front_of_block(lines):
        """The first instructions of a block. Its `phi`s don't count, which change with each jump to the block."""
        return '\n'.join([line for line in lines if ' = phi ' not in line][:4])

    def tags(self):
        """A tag for each value: of its instruction; of a `phi`, of its place in its block and the front of that."""
        found = {}
        for lines in self.blocks.values():
            front = self.front_of_block(lines)
            for number, line in enumerate(lines):
                name, is_value, text = line.partition(' = ')
                if is_value and name[0] == '%':
                    found[name] = tag_of(f'phi {number}\n{front}' if text.startswith('phi ') else text)
        return found

    def label_tags(self):
        """A tag for each block, of its front."""
        return {f'%{label}': tag_of(self.front_of_block(lines)) for label, lines in self.blocks.items()}

    @staticmethod
    def choice(line):
        """A `phi`: its name, its type, and its value for each block from which control comes."""
        it = Line(line)
        name = it.next()
        it.next('=')
        it.next('phi')
        kind, values = it.type(), {}
        while it.takes('['):
            value = it.value()
            it.next(',')
            before = it.next().strip('%"')
            if values.setdefault(before, value) != value:
                raise Unknown('two values for one block before')
            it.next(']')
            it.takes(',')
        it.end()
        return name, kind, values

    def leave_unused_casts(self):
        """Removes casts of numbers whose result isn't used, so that no variable is kept only for them; and counts the uses."""
        while True:
            self.count_uses()
            unused = {line for lines in self.blocks.values() for line in lines if (cast := CAST.match(line)) and not self.uses[cast[1]]}
            if not unused:
                return
            self.blocks = {label: [line for line in lines if line not in unused] for label, lines in self.blocks.items()}

    def count_uses(self):
        self.uses, self.places = Counter(), {}
        for label, lines in self.blocks.items():
            for _, _, values in self.choices[label]:
                for before, value in values.items():
                    # once for each jump: several arms of a switch may lead to the same block
                    for _ in range(self.jumps[before].count(label)):
                        self.used(value, before)
            for line in lines:
                if ' = phi ' not in line:
                    for name in re.findall(r'%(?:"[^"]*"|[-\w.$]+)', re.sub(r'^%("[^"]*"|\S+) = |label %("[^"]*"|[-\w.$]+)', '', line)):
                        self.used(name, label)

    @staticmethod
    def local(it):
        """The name of a local, with its size and alignment."""
        name = it.next()
        it.next('=')
        it.next('alloca')
        size, _ = size_of(it.type())
        it.next(',')
        it.next('align')
        align = int(it.next())
        it.end()
        return name, (size, align)

    def shared(self):
        """Arrays of bytes, each with the locals that share it. No two of these are in use at the same time."""
        marks = {label: re.findall(r'@llvm\.lifetime\.(start|end)\.p0\(ptr nonnull (%[-\w.$]+)\)', '\n'.join(lines)) for label, lines in self.blocks.items()}
        marked = {name for found in marks.values() for _, name in found}
        said = sum('@llvm.lifetime.' in line for lines in self.blocks.values() for line in lines)
        if said != sum(map(len, marks.values())) or not marked <= {*self.locals}:
            raise Unknown('a mark of a lifetime')
        clashes = {name: {*self.locals} - marked - {name} if name in marked else {*self.locals} - {name} for name in self.locals}
        used = {label: set() for label in self.blocks}
        ahead = [*self.blocks]
        while ahead:
            label = ahead.pop()
            now = {*used[label]}
            for mark, name in marks[label]:
                if mark == 'end':
                    now.discard(name)
                    continue
                for other in now - {name}:
                    clashes[name].add(other)
                    clashes[other].add(name)
                now.add(name)
            for further in {*self.jumps[label]}:
                if not now <= used[further]:
                    used[further] |= now
                    ahead.append(further)
        slots = []
        for name in self.locals:
            slot = next((slot for slot in slots if not clashes[name] & {*slot}), None)
            if slot is None:
                slots.append(slot := [])
            slot.append(name)
        return slots

    def used(self, value, label):
        if isinstance(value, str) and value[0] == '%':
            self.uses[value] += 1
            self.places.setdefault(value, set()).add(label)

    def text(self):
        try:
            return Writer(self).text()
        except Unknown as error:
            return sys.exit(f'{self.signature.name}: {error}')
