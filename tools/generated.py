#!/usr/bin/env python3
"""Writes generated/, the compiled form of the proved sources in C, which a C compiler builds without the toolchain.

    generated.py            writes it again from the current sources, over the libraries that `dev/test` left here; minutes
    generated.py --check    writes it into a temporary folder and compares every byte
    generated.py --sums     compares the sums in generated/ORIGIN with the files; needs no toolchain, takes milliseconds
    generated.py --map NAME prints generated/NAME.map as it is written, for ./install

generated/ORIGIN names the toolchain's logic, and has one sum for each crate that the C is made from, over `src`, `specs` and `proofs`,
one for the scripts that write the C, and one for each file. So --sums says which crate has changed since the C was written.
It can't say whether the C is what the sources compile to; --check does. The last line is `N passed, M failed`.

If the C of the library has changed, writes bindings/js/capnp_canonical.wasm again too, provided that clang and wasm-ld are
there, and viewer/capnp_view.html, which has it inside. --sums also compares that page with what it is made of."""
import hashlib
import pathlib
import re
import shutil
import subprocess
import sys
import tempfile

from libraries import FOR_C, PARTS, TOP, Crates

NAME = 'capnp_canonical'
EXPORTS = 'tools/exports.txt'
# The libraries and the programs.
CRATES = *FOR_C, 'capnp_canon', 'layout_tool', 'capnpc_layout_rust', 'capnpc_layout_c'
WRITER = 'tools/generate.py', 'tools/c_of_module'
WASM = 'bindings/js'
VIEWER = 'viewer/build.py'
AGAIN = 'run python3 tools/generated.py'


def digest(data):
    return hashlib.sha256(data).hexdigest()


def sum_of(paths):
    """A sum over files and the files below folders, with their names. What Python keeps isn't counted."""
    found = sorted(it for path in paths for it in ([TOP / path] if (TOP / path).is_file() else (TOP / path).rglob('*')))
    lines = [f'{digest(it.read_bytes())}  {it.relative_to(TOP).as_posix()}\n' for it in found if it.is_file() and it.suffix != '.pyc']
    return digest(''.join(lines).encode())


def header_of(name):
    return f'bindings/c/{name}.h'


def declarations(name):
    """The functions that a library's header declares: the result, the name and the arguments of each."""
    return re.findall(r'(?m)^([a-z][^()]*\b)(%s_\w+)\(([^)]*)\);' % name, (TOP / header_of(name)).read_text(encoding='utf-8'))


def sums():
    """The sums of the sources: of what each crate has and depends on, of what writes the C, and of what the headers declare."""
    crates = Crates()
    wanted = dict.fromkeys(it for crate in CRATES for it in (*crates.below(crate), crate))
    made = {f'crates/{it}': sum_of([f'crates/{it}/{part}' for part in PARTS]) for it in wanted}
    edges = ''.join(f'{it}: {" ".join([*crates.kind[it], *crates.stands_on[it]])}\n' for it in wanted)
    headers = {header_of(it): digest(repr(declarations(it)).encode()) for it in FOR_C.values()}
    return {**made, 'crates.txt': digest(edges.encode()), 'writer': sum_of(WRITER), **headers, EXPORTS: sum_of([EXPORTS])}


def came_with(library):
    """The version that each function of a library came with, such as (1, 1)."""
    lines = [it.split() for it in (TOP / EXPORTS).read_text(encoding='utf-8').splitlines() if not it.startswith('#')]
    return {name: tuple(map(int, version.split('.'))) for version, name in lines if name.startswith(f'{library}_')}


def exports(library):
    """The linker script of a shared library: its visible names, in a node for each version that functions came with."""
    versions, declared = came_with(library), {name for _, name, _ in declarations(library)}
    if declared != versions.keys():
        sys.exit(f'generated.py: {EXPORTS} and {header_of(library)} differ: {" ".join(sorted(declared ^ versions.keys()))}')
    nodes, before, local = [], '', 'local:\n    *;\n'
    for version in sorted({*versions.values()}):
        node = f'{library.upper()}_{".".join(map(str, version))}'
        names = ''.join(f'    {it};\n' for it in sorted(versions) if versions[it] == version)
        nodes.append(f'{node} {{\nglobal:\n{names}{local}}}{before};\n')
        before, local = f' {node}', ''
    return '\n'.join(nodes).encode()


def origin(logic, files):
    """What the files were made from. Another kit of the same logic changes nothing here."""
    lines = [f'logic: {logic}', *(f'{name}: {it}' for name, it in sums().items())]
    return '\n'.join([*lines, *(f'generated/{name}: {digest(data)}' for name, data in sorted(files.items())), '']).encode()


def made():
    """The files of generated/ that the current sources compile to."""
    with tempfile.TemporaryDirectory(prefix='generated-') as room:
        # sources that change while this runs have another sum than the one that is written
        before = sums()
        run = subprocess.run([sys.executable, '-B', str(TOP / 'tools/generate.py'), room, *CRATES], stdout=sys.stderr)
        if run.returncode or sums() != before:
            sys.exit('generated.py: nothing is written' + ('' if run.returncode else ': the sources have changed in the meantime'))
        files = {it.name: it.read_bytes() for it in pathlib.Path(room).iterdir()}
    files.update({f'{it}.map': exports(it) for it in FOR_C.values()})
    version = subprocess.run(['rt', 'version'], stdin=subprocess.DEVNULL, stdout=subprocess.PIPE, encoding='utf-8', check=True).stdout
    return {**files, 'ORIGIN': origin(version.split()[-1], files)}


def listed(page):
    """The lines `NAME: VALUE` of a file, or none if it isn't there."""
    lines = (TOP / page).read_text(encoding='utf-8').splitlines() if (TOP / page).is_file() else []
    return {name: value for name, _, value in (it.partition(': ') for it in lines)}


def sum_now(path):
    return digest((TOP / path).read_bytes()) if (TOP / path).is_file() else 'none'


def differing():
    """Each thing that has a sum, with what is wrong with it, or None."""
    said, now = listed('generated/ORIGIN'), sums()
    files = {f'generated/{it.name}' for it in (TOP / 'generated').glob('*') if it.is_file() and it.name != 'ORIGIN'}
    for name in sorted({*now, *(it for it in said if it.startswith('crates/'))}):
        yield name, None if said.get(name) == now.get(name) else f'{name} has changed since generated/ was written: {AGAIN}'
    for name in sorted({*files, *(it for it in said if it.startswith('generated/'))}):
        yield name, None if said.get(name) == sum_now(name) else f'{name} is not the file that generated/ORIGIN names: {AGAIN}'
    said = listed(f'{WASM}/ORIGIN')
    for path in f'generated/{NAME}.c', header_of(NAME), f'{WASM}/{NAME}.wasm', f'{WASM}/{NAME}_small.wasm':
        is_right = said.get(f'sha256 of {pathlib.PurePath(path).name}') == sum_now(path)
        yield f'{WASM}: {path}', None if is_right else f'{path} is not what {WASM}/ORIGIN names: run make wasm'
    is_right = not page('--check')
    yield VIEWER, None if is_right else f'the viewer is not what {VIEWER} makes: run it'


def compared():
    """Each file of generated/, with what is wrong with it, or None."""
    files = made()
    for it in sorted((TOP / 'generated').iterdir()):
        if it.is_file() and it.name not in files:
            yield it.name, f'generated/{it.name} is not what the sources compile to: remove it'
    for name, data in files.items():
        path = TOP / 'generated' / name
        is_right = path.is_file() and path.read_bytes() == data
        yield name, None if is_right else f'generated/{name} is not what the sources compile to: {AGAIN}'


def page(*words):
    """Makes or checks the viewer's page, and returns the status."""
    return subprocess.run([sys.executable, '-B', str(TOP / VIEWER), *words], stdout=subprocess.DEVNULL, stderr=subprocess.DEVNULL).returncode


def write():
    files = made()
    (TOP / 'generated').mkdir(exist_ok=True)
    for it in (TOP / 'generated').iterdir():
        if it.is_file() and it.name not in files:
            it.unlink()
    for name, data in files.items():
        (TOP / 'generated' / name).write_bytes(data)
    if listed(f'{WASM}/ORIGIN').get(f'sha256 of {NAME}.c') == sum_now(f'generated/{NAME}.c'):
        return 0
    if not all(map(shutil.which, ('clang', 'wasm-ld'))):
        print(f'{WASM}/{NAME}.wasm is of older C: run make wasm where clang and wasm-ld are')
        return 0
    return subprocess.run(['sh', str(TOP / f'{WASM}/build.sh'), str(TOP / 'generated')]).returncode or page()


def main(words):
    if words == []:
        return write()
    if words[:1] == ['--map'] and words[1:] in ([it] for it in FOR_C.values()):
        print(exports(words[1]).decode(), end='')
        return 0
    if words not in (['--check'], ['--sums']):
        sys.exit(__doc__)
    found = [*(differing() if words == ['--sums'] else compared())]
    wrong = [it for _, it in found if it]
    print(*wrong, f'{len(found) - len(wrong)} passed, {len(wrong)} failed', sep='\n')
    return 1 if wrong else 0


if __name__ == '__main__':
    sys.exit(main(sys.argv[1:]))
