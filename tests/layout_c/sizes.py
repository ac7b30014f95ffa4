#!/usr/bin/env python3
"""Measures the machine code of generated/capnp_layout.c, and what each part of the library adds to a program that links it with
--gc-sections. Needs clang and ld.lld.

    sizes.py            prints the table
    sizes.py --write    writes it into docs/C.md
    sizes.py --check    compares it with docs/C.md, if clang is the version that the page names

The last line of --check is `N passed, M failed`, or says that the check is skipped."""
import pathlib
import re
import shutil
import subprocess
import sys
import tempfile

TOP = pathlib.Path(__file__).resolve().parents[2]
SOURCE = TOP / 'generated/capnp_layout.c'
HEADERS = TOP / 'bindings/c'
PAGE = TOP / 'docs/C.md'
MARKS = '<!-- sizes -->\n', '<!-- end -->\n'
MACHINES = {'x86-64': 'x86_64-linux-gnu', 'aarch64': 'aarch64-linux-gnu', 'Cortex-M3': 'thumbv7m-none-eabi'}
# The parts, each with a pattern for the functions of the library that it consists of. The first pattern that fits counts, and a
# part without functions isn't in the table.
PARTS = (
    ('segments, the root, structs and their fields', r'open|root|struct'),
    ('lists', r'list'),
    ('texts and data', r'text|data'),
    ('types of pointers, capabilities', r'type|capability'),
    ('frames', r'open_frame'),
    ('checking a whole message against a schema first', r'check'),
    ('or validating it without one', r'validate'),
    ('building', r'start|finish|grow|clear|(?:init|get|set)_\w+'),
    ('copies of what is read', r'copy\w*'),
    ('the rest', r'\w+'),
)
# What the C needs of the C library. It is declared here, so that no machine's own headers are needed.
STRING = '''#include <stddef.h>
void *memcpy(void *, const void *, size_t);
void *memmove(void *, const void *, size_t);
void *memset(void *, int, size_t);
int memcmp(const void *, const void *, size_t);
size_t strlen(const char *);
'''


def output(*command):
    return subprocess.run(command, stdin=subprocess.DEVNULL, stdout=subprocess.PIPE, encoding='utf-8', check=True).stdout


def parts():
    """The functions of each part that has any."""
    names = re.findall(r'(?m)^[a-z][^()]*\bcapnp_layout_(\w+)\([^)]*\);', (HEADERS / 'capnp_layout.h').read_text(encoding='utf-8'))
    found = {label: [] for label, _ in PARTS}
    for name in names:
        found[next(label for label, pattern in PARTS if re.fullmatch(pattern, name))].append(f'capnp_layout_{name}')
    return {label: them for label, them in found.items() if them}


def compiled(machine, folder):
    """The object for a machine, in which each function has a section of its own."""
    made = folder / f'{machine}.o'
    output('clang', f'--target={machine}', '-std=c11', '-Os', '-DNDEBUG', '-ffunction-sections', '-fdata-sections', '-fno-asynchronous-unwind-tables', '-fno-unwind-tables',
           '-nostdlibinc', f'-I{folder}', f'-I{HEADERS}', '-c', '-o', str(made), str(SOURCE))
    return made


def size(made, names):
    """The bytes of machine code, and of constants, in a program that calls these functions."""
    program = made.with_suffix('.linked')
    output('ld.lld', '--gc-sections', '--unresolved-symbols=ignore-all', '-e', names[0], *(f'--undefined={it}' for it in names), '-o', str(program), str(made))
    sections = output('llvm-readelf', '-S', '--wide', str(program))
    found = re.findall(r'\] (\.text|\.rodata)\S* +PROGBITS +[0-9a-f]+ [0-9a-f]+ ([0-9a-f]+)', sections)
    return sum(int(it, 16) for _, it in found)


def table():
    """The lines of the table: for each part what it adds to those above it, and the whole."""
    with tempfile.TemporaryDirectory(prefix='sizes-') as name:
        folder = pathlib.Path(name)
        (folder / 'string.h').write_text(STRING)
        (folder / 'stdlib.h').write_text('#include <stddef.h>\n')
        objects = [compiled(it, folder) for it in MACHINES.values()]
        rows, names, before = [], [], [0] * len(objects)
        for label, more in parts().items():
            names += more
            sizes = [size(it, names) for it in objects]
            rows.append((label, [it - less for it, less in zip(sizes, before)]))
            before = sizes
    rows.append(('**all**', before))
    head = f'| Part, and what it adds | {" | ".join(MACHINES)} |\n|---|{"---|" * len(MACHINES)}\n'
    return head + ''.join(f'| {label} | {" | ".join(f"{it:,}" for it in sizes)} |\n' for label, sizes in rows)


def compiler():
    return re.search(r'clang version (\d+)', output('clang', '--version'))[1]


def written():
    """The page around its table: what is before, the table, and what is after."""
    before, _, rest = PAGE.read_text(encoding='utf-8').partition(MARKS[0])
    inside, _, after = rest.partition(MARKS[1])
    return before + MARKS[0], inside, MARKS[1] + after


def main(words):
    if words not in ([], ['--write'], ['--check']):
        sys.exit(__doc__)
    lacking = [it for it in ('clang', 'ld.lld', 'llvm-readelf') if not shutil.which(it)]
    before, inside, after = written()
    if words == ['--check'] and (lacking or f'clang {compiler()},' not in before + after):
        print(f'skipped, no {lacking[0] if lacking else "clang of the version in docs/C.md"}')
        return 0
    if words == ['--write']:
        PAGE.write_text(before + table() + after, encoding='utf-8')
    elif words == ['--check']:
        is_right = inside == table()
        print('' if is_right else f'docs/C.md has other sizes: run {pathlib.Path(__file__).name} --write', f'{int(is_right)} passed, {int(not is_right)} failed', sep='\n')
        return 0 if is_right else 1
    else:
        print(table(), end='')
    return 0


if __name__ == '__main__':
    sys.exit(main(sys.argv[1:]))
