#!/usr/bin/env python3
"""Checks four things about names:

- Each name of a definition in `crates/*/specs/` is defined once in all crates.
- What a definition or a proof imports from this repository is in the file that it names. The checker reports this too,
  but only when it reaches that file, which in the gate takes many minutes.
- Each type in the `src/` of a library crate has a name that no other library crate uses.
- Each lemma that a table of docs/ARCHITECTURE.md names is in the file that is named next to it.

    names.py

Prints each name that occurs twice, with its files, and each import or lemma that isn't there. The last line is
`N passed, M failed`, which counts files: a file fails if one of its names occurs twice or one of its imports fails, the page
if it names a lemma that isn't there."""
import collections
import pathlib
import re
import sys

TOP = pathlib.Path(__file__).resolve().parents[1]
TYPE = re.compile(r'( *)(?:abbrev |unfoldable )?pub (record|data) (\S+)')
FUNCTION = re.compile(r'( *)(?:abbrev |unfoldable )?pub (\S+) :')
SOURCE_TYPE = re.compile(r'^(?:pub(?:\([a-z]+\))? )?(?:struct|enum|trait|type) (\w+)', re.MULTILINE)
# Type names that several library crates share. Each is public in at least one of them, so it keeps its name.
SHARED = {
    'Place': 'a word of a segment that is read; the position of a reader of packed bytes',
    'PrimitiveElement': 'the types that an element of a list can be read as; the same for reading and writing',
    'Refusal': 'why a call of the library for C is refused; why a command of layout_tool is refused',
    'Source': 'what a reader reads from; another message that an edit copies from',
    'Task': 'what to do with each message of a stream; an edit whose numbers are in range',
}
IMPORT = re.compile(r'^ *(?:(?:unfoldable )?pub )?use Rattle\.(\w+)\.(specs|proofs)\.([\w.]+)\.\{([^}]*)\}', re.MULTILINE)


def names_of(path):
    """The names that a file defines. The fields of a record aren't definitions."""
    inside = None
    for line in path.read_text(encoding='utf-8').split('\n'):
        indent = len(line) - len(line.lstrip(' '))
        if line.strip() and inside is not None and indent <= inside:
            inside = None
        if found := TYPE.match(line):
            inside = indent if found[2] == 'record' else None
            yield found[3]
        elif inside is None and (found := FUNCTION.match(line)):
            yield found[2]


def imported_file(crate, folder, module):
    """The file of a module of this repository; None if the module is from elsewhere, or is generated from a source."""
    path = TOP / 'crates' / crate / folder / (module.replace('.', '/') + '.antt')
    return path if path.is_file() else None


def nowhere(path):
    """The imports of a file whose name isn't in the file of this repository that they import from."""
    for crate, folder, module, names in IMPORT.findall(path.read_text(encoding='utf-8')):
        if (source := imported_file(crate, folder, module)) is None:
            continue
        text = source.read_text(encoding='utf-8')
        for name in (it.strip().split(' as ')[0] for it in names.split(',')):
            if not re.search(rf'(?<![\w-]){re.escape(name)}(?![\w-])', text):
                yield f'{crate}.{folder}.{module}.{name}'


def twice(files):
    """The files of `specs/` that define a name which is also defined elsewhere."""
    places = collections.defaultdict(list)
    for path in files:
        for name in names_of(path):
            places[name].append(path)
    for name, found in sorted(places.items()):
        if len(found) > 1:
            print(f'{name} is defined more than once: {", ".join(str(it.relative_to(TOP)) for it in found)}')
            yield from found


def types_twice(files):
    """The files of library crates with a type whose name another library crate uses too, except for SHARED."""
    places = collections.defaultdict(list)
    for path in files:
        for name in SOURCE_TYPE.findall(path.read_text(encoding='utf-8')):
            places[name].append(path)
    shared = {name: found for name, found in places.items() if len({it.relative_to(TOP).parts[1] for it in found}) > 1}
    for name in sorted(SHARED.keys() - shared.keys()):
        raise SystemExit(f'tests/names.py: {name} is no longer a type of two library crates: remove it from SHARED')
    for name, found in sorted(shared.items()):
        if name not in SHARED:
            print(f'{name} is a type of more than one library crate: {", ".join(str(it.relative_to(TOP)) for it in found)}')
            yield from found


def lemmas_nowhere(page):
    """The lemmas that a page names in a table, with the file in the next column, and that aren't in that file."""
    for name, file in re.findall(r'\| `([\w-]+)` \| `(crates/[\w/]+\.antt)` \|', page.read_text(encoding='utf-8')):
        path = TOP / file
        if not path.is_file() or not re.search(rf'^pub {re.escape(name)} :', path.read_text(encoding='utf-8'), re.MULTILINE):
            yield f'{name} of {file}'


def main():
    page = TOP / 'docs/ARCHITECTURE.md'
    specs = [path for path in sorted(TOP.glob('crates/*/specs/*.antt')) if path.name != 'Lib.antt']
    proofs = sorted(TOP.glob('crates/*/proofs/**/*.antt'))
    sources = sorted(TOP.glob('crates/capnp_*/src/**/*.rt'))
    failed = {*twice(specs), *types_twice(sources)}
    for path in specs + proofs:
        for name in nowhere(path):
            print(f'{path.relative_to(TOP)} imports {name}, which is not there')
            failed.add(path)
    for name in lemmas_nowhere(page):
        print(f'{page.relative_to(TOP)} names {name}, which is not there')
        failed.add(page)
    files = {*specs, *proofs, *sources, page}
    print(f'{len(files) - len(failed)} passed, {len(failed)} failed')
    return 1 if failed or not files else 0


sys.exit(main())
