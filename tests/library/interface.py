"""interface.py [FOLDER]
interface.py --record VERSION FOLDER

Compares the names, numbers, layouts and types of the headers for C in FOLDER, or bindings/c, with those that interface.txt has
of each version: a program that was written for one of them compiles, and means the same. A new version may have more.
Prints a line for each difference. The last line is `N passed, M failed`; a macro, a number, a size, a field and a function
count one each. Needs a C compiler, CC or cc.

With --record, prints the lines of interface.txt for the headers of a version: what no version in the file has.
"""
import os
import pathlib
import re
import subprocess
import sys
import tempfile

HERE = pathlib.Path(__file__).resolve().parent
FOLDER = HERE.parents[1] / 'bindings/c'
HEADERS = 'capnp_canonical.h', 'capnp_canonical_limits.h'
RECORD = HERE / 'interface.txt'
CC = os.environ.get('CC', 'cc').split()
# What compilers and linkers are told, and the number of the version.
OTHER_MACROS = re.compile(r'_(H|INLINE|API|CHECKED|NEEDS|READS|WRITES|DEPRECATED|VERSION|VERSION_TEXT)$')


def without_comments(text):
    return re.sub(r'/\*.*?\*/', ' ', text, flags=re.S)


def types_of(parameters):
    """The types of a list of parameters, without their names."""
    if parameters == 'void':
        return parameters
    return ', '.join(re.sub(r'\w+\[\d+\]$', '*', it) if '[' in it else re.sub(r'\w+$', '', it).strip() for it in parameters.split(', '))


def headers_in(folder):
    """The headers that are there; version 1.0.0 has one."""
    return [folder / name for name in HEADERS if (folder / name).is_file()]


def facts_of(header):
    """What a header promises: a line for each fact, without sizes and places."""
    text = without_comments(header.read_text(encoding='utf-8'))
    for name, value in re.findall(r'^#define (CAPNP_CANONICAL_\w+) (\S+)$', text, re.M):
        if not OTHER_MACROS.search(name):
            yield f'macro {name} {value}'
    for enum, body in re.findall(r'^enum (\w+) \{(.*?)^\};', text, re.M | re.S):
        for name, number in re.findall(r'(\w+) = (\d+)', body):
            yield f'number {enum} {name} {number}'
    structs = re.findall(r'^struct (\w+) \{(.*?)^\};', text, re.M | re.S)
    for name, body in structs:
        yield f'size {name}'
        for kind, field in re.findall(r'^ +([\w ]+?\*?) ?\*?(\w+);', body.replace('*', '* '), re.M):
            yield f'field {name} {field} {kind.strip()}'
    for kind, name, parameters in re.findall(r'^(?:CAPNP_CANONICAL_INLINE )?((?:const )?[a-z]\w+ \*?)(capnp_canonical_\w+)\(([^{\n]*)\)(?:;| \{)$', text, re.M):
        if '_private_' not in name:
            yield f'function {name} {kind.strip()} ({types_of(parameters)})'


def program(lines, measure=False):
    """A C program of a line for each fact, which compiles if it holds. With `measure`, it prints the sizes and places."""
    shown = []
    for line in lines:
        kind, name, *rest = line.split(' ', 2)
        rest = rest[0] if rest else ''
        if kind == 'macro':
            yield f'_Static_assert({name} == {rest}, "");'
        elif kind == 'number':
            yield '_Static_assert((enum {}){} == {}, "");'.format(name, *rest.split())
        elif kind == 'size' and not measure:
            yield '_Static_assert(sizeof(struct {}) == {} && _Alignof(struct {}) == {}, "");'.format(name, rest.split()[0], name, rest.split()[1])
        elif kind == 'field' and not measure:
            field, place, of = rest.split(' ', 2)
            yield f'_Static_assert(offsetof(struct {name}, {field}) == {place} && _Generic(((struct {name} *)0)->{field}, {of}: 1, default: 0), "");'
        elif kind == 'function':
            result, parameters = re.match(r'(.*) (\(.*\))$', rest).groups()
            yield f'static {result} (*const to_{name}){parameters} = {name};'
        elif measure:
            field = rest.split(' ')[0]
            shown.append(f'printf("%zu %zu\\n", sizeof(struct {name}), _Alignof(struct {name}));' if kind == 'size' else f'printf("%zu\\n", offsetof(struct {name}, {field}));')
    if measure:
        yield 'int main(void) { ' + ' '.join(shown) + ' return 0; }'


def source(folder, lines, measure=False):
    last = headers_in(folder)[-1].resolve()
    return ''.join(f'{it}\n' for it in [f'#include "{last}"', '#include <stddef.h>', '#include <stdio.h>', *program(lines, measure)])


def measured(folder, lines):
    """The same lines, with the sizes of structs and the places of fields."""
    with tempfile.TemporaryDirectory() as room:
        path = pathlib.Path(room) / 'measure.c'
        path.write_text(source(folder, [it for it in lines if it.split(' ')[0] in ('size', 'field')], True), encoding='utf-8')
        subprocess.run([*CC, '-std=c11', '-o', f'{room}/measure', path], check=True)
        told = subprocess.run([f'{room}/measure'], stdout=subprocess.PIPE, check=True, encoding='utf-8').stdout.splitlines()
    for line in lines:
        kind, *words = line.split(' ', 3)
        if kind == 'size':
            yield f'{line} {told.pop(0)}'
        elif kind == 'field':
            yield f'field {words[0]} {words[1]} {told.pop(0)} {words[2]}'
        else:
            yield line


def recorded():
    """The facts of all versions, each with its version."""
    version, found = None, []
    for line in RECORD.read_text(encoding='utf-8').splitlines():
        if line.startswith('version '):
            version = line.split(' ')[1]
        elif line and not line.startswith('#'):
            found.append((version, line))
    return found


def record(version, folder):
    known = [line for _, line in recorded()]
    print(f'\nversion {version}')
    for line in measured(folder, [it for header in headers_in(folder) for it in facts_of(header)]):
        if line not in known:
            print(line)


def refused_lines(folder, lines):
    """The numbers of the facts that the compiler refuses, and all that it says."""
    with tempfile.TemporaryDirectory() as room:
        path = pathlib.Path(room) / 'interface.c'
        path.write_text(source(folder, lines), encoding='utf-8')
        run = subprocess.run([*CC, '-std=c11', '-Wall', '-Wno-unused', '-Wno-deprecated-declarations', '-Werror', '-fsyntax-only', path],
                             stderr=subprocess.PIPE, encoding='utf-8')
    numbers = {int(it) - 4 for it in re.findall(r'interface\.c:(\d+):\d+: error', run.stderr)}
    return numbers, run.stderr if run.returncode and not numbers else ''


def main():
    if sys.argv[1:2] == ['--record']:
        record(sys.argv[2], pathlib.Path(sys.argv[3]))
        return 0
    facts = recorded()
    refused, said = refused_lines(pathlib.Path(sys.argv[1]) if sys.argv[1:] else FOLDER, [line for _, line in facts])
    for number in sorted(refused):
        print(f'not as in version {facts[number][0]}: {facts[number][1]}')
    if said:
        print(said)
        refused = range(len(facts))
    print(f'{len(facts) - len(refused)} passed, {len(refused)} failed')
    return 1 if refused else 0


sys.exit(main())
