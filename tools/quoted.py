"""Finds what pages quote from the sources: definitions of `crates/*/specs/`, and items of `crates/*/src/`."""
import dataclasses
import functools
import pathlib
import re

TOP = pathlib.Path(__file__).resolve().parents[1]
IMPORT = re.compile(r'^(?:ghost )?use Rattle\.(\w+)\.specs\.([\w.]+)\.\{([^}]*)\}', re.M)
DECLARED = re.compile(r'^ *(?:(?:abbrev|unfoldable) )?(?:pub )?(?:(record|data) )?([^\s(){}]+)')
PARTS = re.compile(r"[A-Za-z_][\w']*")
NOT_NAMES = {'abbrev', 'unfoldable', 'pub', 'mutual', 'where', 'record', 'data', 'module', 'infixl', 'infixr', 'infix'}


@dataclasses.dataclass(frozen=True)
class Definition:
    """One definition, or several that cite one another: their comments and their text. `inside` is the line `module _ .. where`
    that the definition is indented below, if it is."""

    crate: str
    module: str
    names: tuple
    text: str
    line: int
    inside: str = ''

    @property
    def comments(self):
        return '\n'.join(line for line in self.text.split('\n') if line.strip().startswith('--'))

    @property
    def code(self):
        return '\n'.join(line for line in self.text.split('\n') if not line.strip().startswith('--'))

    @property
    def cites(self):
        return f'{self.inside}\n{self.code}'


def imported(text):
    """For each name that a file imports from specs/: the crate, the module, and its name there."""
    found = {}
    for crate, module, names in IMPORT.findall(text):
        for name in filter(None, (part.strip() for part in names.split(','))):
            there, _, here = name.partition(' as ')
            found[(here or there).strip()] = (crate, module, there.strip())
    return found


def names_of(lines):
    """The names that a definition introduces: its own, those defined together with it, and the cases of a `data`. Fields of a
    record don't count: a text that uses one has named the record, and variables may have the same name."""
    inside, kind = None, ''
    for line in lines:
        indent = len(line) - len(line.lstrip(' '))
        if inside is not None and indent <= inside:
            inside = None
        if inside is not None:
            if kind == 'data' and (found := re.match(r' *(\w+) :', line)):
                yield found[1]
            continue
        found = re.match(r' *(?:(?:abbrev|unfoldable) )?pub (record|data) (\S+)', line)
        if found:
            yield found[2]
            inside, kind = indent, found[1]
        elif found := re.match(r' *(?:(?:abbrev|unfoldable) )?(?:pub )?([^\s(){}]+) :', line):
            if found[1] not in NOT_NAMES:
                yield found[1]


@dataclasses.dataclass(frozen=True)
class Specs:
    """A file of specs/: its first comment, its definitions in order, and its imports."""

    crate: str
    module: str
    heading: str
    definitions: tuple
    imports: dict


def blocks_of(lines, start, indent):
    """The blocks of lines from `start` on, each with the number of its first line. After a blank line, a line with this indent or
    with a smaller one begins a block."""
    block, begun = [], start
    for number, line in enumerate(lines[start:], start):
        if line.strip() and len(line) - len(line.lstrip(' ')) <= indent and block and not block[-1].strip():
            yield begun, block
            block = []
        if not block:
            begun = number
        if block or line.strip():
            block.append(line)
    yield begun, block


def definitions_in(lines, start):
    """The blocks of a file of specs/, each with the number of its first line and the line `module _ .. where` around it."""
    for begun, block in blocks_of(lines, start, 0):
        head = next((i for i, line in enumerate(block) if not line.startswith('--')), 0)
        if block and block[head].startswith('module _'):
            yield from ((begun + at, inner, block[head]) for at, inner in blocks_of(block, head + 1, 2))
        else:
            yield begun, block, ''


@functools.cache
def specs(crate, module):
    text = (TOP / f'crates/{crate}/specs/{module}.antt').read_text(encoding='utf-8')
    lines = text.split('\n')
    start = max((i for i, line in enumerate(lines) if line.startswith('use ')), default=-1) + 1
    heading = [line for line in lines[:start] if line.startswith('--')]
    found = []
    for begun, block, inside in definitions_in(lines, start):
        while block and not block[-1].strip():
            block = block[:-1]
        code = [line for line in block if not line.strip().startswith('--')]
        names = tuple(dict.fromkeys(names_of(code)))
        if names:
            found.append(Definition(crate, module, names, '\n'.join(block), begun + 1, inside))
    return Specs(crate, module, '\n'.join(heading), tuple(found), imported(text))


def said_of(definition, name):
    """The comment above a name of a definition; if there is none, the last comment before it in the file."""
    lines = (TOP / f'crates/{definition.crate}/specs/{definition.module}.antt').read_text(encoding='utf-8').split('\n')
    at = next(i for i in range(definition.line - 1, len(lines)) if re.match(rf' *(?:abbrev )?(?:pub )?(?:(?:record|data) )?{re.escape(name)}(?= )', lines[i]))
    while not lines[at - 1].strip().startswith('--'):
        at -= 1
    start = at
    while lines[start - 1].strip().startswith('--'):
        start -= 1
    return ' '.join(line.strip().removeprefix('--').strip() for line in lines[start:at])


@functools.cache
def defining(crate, module, name):
    """The definition of a name in the sources of this repository, or None."""
    module = module.split('.')[0]
    if not (TOP / f'crates/{crate}/specs/{module}.antt').is_file():
        return None
    for definition in specs(crate, module).definitions:
        if name in definition.names:
            return definition
    return None


def words_in(code):
    """The names in a text. An operator also counts with `◌` for each operand."""
    names = set(PARTS.findall(code))
    signs = {word for word in re.split(r'[\s(){},;]+', code) if word and not PARTS.search(word) and not word[0].isdigit()}
    return names | {f'◌{sign}◌' for sign in signs} | signs


def cited(code, imports, own=None):
    """The definitions, the types of the program and the words of the standard library that a text cites. A field of a record that
    is read (`r.levels`) or given (`levels = n`) isn't a definition of the same name."""
    found, types, words = set(), set(), set()
    code = re.sub(r'(?<=[\w)])\.[a-z]\w*', '', code)
    code = re.sub(r'(?m)(^ +|[{;] )[a-z]\w* =(?=\s)', r'\1=', code)
    for name in words_in(code):
        if own and (here := defining(own.crate, own.module, name)):
            found.add(here)
        elif name in imports:
            crate, module, there = imports[name]
            if module.startswith('declared.'):
                types.add((crate, module.removeprefix('declared.').removesuffix('.TheVariants')))
            elif definition := defining(crate, module, there):
                found.add(definition)
            elif not (TOP / 'crates' / crate).is_dir():
                words.add(there)
    return found, types, words


def closure(begin, without=frozenset()):
    """These definitions and all that they rest on, without the definitions of another closure."""
    found, types, words = set(), set(), set()
    waiting = list(begin)
    while waiting:
        definition = waiting.pop()
        if definition in found or definition in without:
            continue
        found.add(definition)
        own = specs(definition.crate, definition.module)
        more, named, used = cited(definition.cites, own.imports, own)
        waiting += more
        types |= named
        words |= used
    return found, types, words


@dataclasses.dataclass(frozen=True)
class Function:
    """A function of the program: its signature, its clauses, its lines with the comment above it, and the imports of its file."""

    name: str
    signature: tuple
    clauses: tuple
    text: tuple
    imports: dict

    @property
    def head(self):
        """The signature in one line, with the type of a method in front of its name."""
        text = re.sub(r'\( ', '(', re.sub(r',? \)', ')', ' '.join(line.strip() for line in self.signature)))
        return re.sub(r'(?:pub(?:\([^)]*\))? )?(?:extern "C" )?fn \w+', f'fn {self.name}', text, count=1)

    def chosen(self, labels):
        if not labels:
            return [line for _, lines in self.clauses for line in lines], False
        missing = set(labels) - {label for label, _ in self.clauses}
        if missing:
            raise SystemExit(f'{self.name}: no clause {", ".join(sorted(missing))}')
        return [line for label, lines in self.clauses if label in labels for line in lines], len(labels) < len(self.clauses)


def without_indent(lines, indent):
    return [line[indent:] for line in lines]


def owner(lines, number):
    """The type of the `impl` or `trait` that contains a line: B for `impl A for B`."""
    if not lines[number].startswith(' '):
        return ''
    for line in reversed(lines[:number]):
        if found := re.match(r'(?:pub )?(impl|trait)\b(?:<[^{]*?>)? ?(.*)', line):
            text = re.sub(r'<[^<>]*>', '', re.sub(r'<[^<>]*>', '', found[2]))
            return re.split(r' for ', text)[-1].split('<')[0].split(' ')[0].split(':')[0].split('{')[0].strip()
        if line.startswith('}'):
            return ''
    return ''


def function(path, name):
    """A function of a file, or a method of one of its types or traits, which is named `Type::name`."""
    text = (TOP / path).read_text(encoding='utf-8')
    lines = text.split('\n')
    of, _, last_name = name.rpartition('::')
    heads = (i for i, line in enumerate(lines) if re.match(rf' *(?:pub(?:\([^)]*\))? )?(?:const )?(?:extern "C" )?fn {last_name}\b', line))
    start = next((i for i in heads if not of or owner(lines, i) == of), None)
    if start is None:
        raise SystemExit(f'{path}: no function {name}')
    indent = len(lines[start]) - len(lines[start].lstrip(' '))
    above = start
    while above and re.match(r' *(///|#\[)', lines[above - 1]):
        above -= 1
    end = start
    while not ends(lines, start, end, indent):
        end += 1
    last = end
    if lines[end].endswith('{'):
        last = next(i for i in range(end + 1, len(lines)) if lines[i] == ' ' * indent + '}')
    head = lines[start:end] + ([] if lines[end].strip() in ('{', '{}') else [re.sub(r' ?\{$|;$', '', lines[end])])
    split = next((i for i, line in enumerate(head) if re.match(r' *(ensures|requires)\b', line)), len(head))
    clauses = []
    for line in without_indent(head[split:], indent):
        if found := re.match(r' *(?:ensures|requires)\*? (\w*)', line):
            clauses.append((found[1], [line]))
        else:
            clauses[-1][1].append(line)
    comment = [line for line in lines[above:start] if line.strip().startswith('///')]
    return Function(
        name, tuple(without_indent(head[:split], indent)), tuple((label, tuple(found)) for label, found in clauses),
        tuple(without_indent(comment + lines[start:last + 1], indent)), imported(text))


def ends(lines, start, number, indent):
    """Whether the signature and the clauses of a function end at a line: with the first brace of its body, or a semicolon."""
    line = lines[number]
    if line in (' ' * indent + '{', ' ' * indent + '{}') or line.endswith('};') or line.endswith(';'):
        return True
    clause = any(re.match(r' *(ensures|requires)\b', before) for before in lines[start:number + 1])
    return line.endswith('{') and not clause


def item(path, name):
    """A struct, enum, trait, constant or type of a file, with the comments and attributes above it, up to its last brace."""
    lines = (TOP / path).read_text(encoding='utf-8').split('\n')
    start = next((i for i, line in enumerate(lines) if re.match(rf' *(?:pub(?:\([^)]*\))? )?(?:struct|enum|trait|const|type) {name}\b', line)), None)
    if start is None:
        raise SystemExit(f'{path}: no item {name}')
    above = start
    while above and re.match(r' *(///|//|#\[)', lines[above - 1]):
        above -= 1
    indent = len(lines[start]) - len(lines[start].lstrip(' '))
    end = start
    if not lines[start].endswith(';'):
        end = next(i for i in range(start, len(lines)) if lines[i] == ' ' * indent + '}' or lines[i].endswith('{}'))
    return without_indent(lines[above:end + 1], indent)


def declared_in(crate, path):
    """The file of a crate that declares a type, from its path: `edit.tasks.Task` is in `edit/tasks.rt` or `edit.rt`."""
    *modules, name = path.split('.')
    for kept in range(len(modules), -1, -1):
        file = f'crates/{crate}/src/{"/".join(modules[:kept])}.rt'
        if (TOP / file).is_file() and re.search(rf'^ *(?:pub(?:\([^)]*\))? )?(?:struct|enum|trait) {name}\b', (TOP / file).read_text(encoding='utf-8'), re.M):
            return file
    # a module that exports what another crate declares
    text = (TOP / f'crates/{crate}/src/{"/".join(modules)}.rt').read_text(encoding='utf-8')
    if found := re.search(rf'^pub use (capnp_\w+)::([\w:]+)::(?:\{{[^}}]*\b{name}\b[^}}]*\}}|{name};)', text, re.M):
        return declared_in(found[1], '.'.join([*found[2].split('::'), name]))
    raise SystemExit(f'{crate}: no file has {path}')
