#!/usr/bin/env python3
"""Translates the compiled form of crates of this repository to C.

    generate.py FOLDER CRATE..

Writes FOLDER/CRATE.c for a library or a program, from the current sources; for a program of several files FOLDER/CRATE.h and
FOLDER/CRATE_PART.c too; for a library whose header has another name, FOLDER/HEADER.c. proved.py proves the crates
first, over the libraries that `dev/test` has left in this tree if they are of the current sources. `rattle build` lowers a crate
to an LLVM module and passes it to clang. Here a script takes the place of clang: it also makes the toolchain's clang write the
module as optimised text. c_of_module translates that text to C."""
import pathlib
import subprocess
import sys

import proved
from libraries import FOR_C

sys.path.append(str(proved.TOP / 'tools/c_of_module'))
import constants

# Options that leave vector instructions and longer loops to the C compiler, and make no code that depends on where it is
# loaded.
OPTIMISED = '--target=x86_64-unknown-linux-gnu --no-default-config -O2 -fno-vectorize -fno-slp-vectorize -fno-unroll-loops -fno-pic -fno-pie'
# Programs of several files, and which crates, or modules of them, each file has: `make -j` compiles them side by side.
PARTS = {
    'capnp_canon': (
        'inputs=capnp_canon::inputs', 'diffs=capnp_canon::diffs', '=capnp_canon', '=main', 'streams=capnp_streams', 'show=capnp_show',
        'io=std_io', 'io=std_fs', 'io=core::fmt', 'layer=', 'typed=typed_streams', 'typed=typed_conforming', 'schema=capnp_canon::schema',
        'schema=capnpc_schema', 'schema=schema_reading', 'schema=typed_reading', 'schema=capnp_readers', 'schema=capnp_builders', 'schema=capnp_in_place',
    ),
}
CLANG = '''#!/bin/sh
case " $* " in *" -x ir module.bc "*) {clang} {flags} -S -emit-llvm -o {kept} -x ir module.bc || exit ;; esac
exec {clang} "$@"
'''


def with_script(real, room, kept):
    """Makes a toolchain that is the real one except for its clang."""
    (room / 'bin').mkdir(parents=True)
    (room / 'lib').symlink_to(real / 'toolchain/lib')
    for it in (real / 'toolchain/bin').iterdir():
        (room / 'bin' / it.name).symlink_to(it)
    clang = room / 'bin/clang'
    clang.unlink()
    clang.write_text(CLANG.format(clang=real / 'toolchain/bin/clang', flags=OPTIMISED, kept=kept), encoding='utf-8')
    clang.chmod(0o755)
    return room


def write(room, crate, to):
    """Writes the C of a crate. Its module is compiled for the oldest x86-64 processor, so it depends on no newer one."""
    module = room.at / f'{crate}.ll'
    room.build(crate, room.at / f'{crate}.built', with_script(room.crates.kit, room.at / f'toolchain_of_{crate}', module), '--cpu', 'x86-64')
    name = FOR_C.get(crate, crate)
    # a program exports nothing that a header declares
    header = proved.TOP / f'bindings/c/{FOR_C.get(crate, "capnp_canonical")}.h'
    writer = [sys.executable, '-B', str(proved.TOP / 'tools/c_of_module'), str(module), str(header)]
    parts = PARTS.get(crate)
    run = subprocess.run([*writer, *([str(to), crate, *parts] if parts else [])], stdout=subprocess.PIPE, stderr=subprocess.PIPE, encoding='utf-8')
    if run.returncode:
        sys.exit(f'generate.py: {crate}: {run.stderr}')
    if not parts:
        (to / f'{name}.c').write_text(run.stdout, encoding='utf-8')
    written = (to / (f'{crate}.h' if parts else f'{name}.c')).read_text(encoding='utf-8')
    if wrong := constants.differing(module.read_text(encoding='latin-1'), written)[0]:
        sys.exit(f'generate.py: {crate}: the C of {wrong} isn\'t what the module has')


def main(given):
    if len(given) < 2:
        sys.exit(__doc__)
    to = pathlib.Path(given[0]).resolve()
    to.mkdir(parents=True, exist_ok=True)
    try:
        proved.over_libraries(given[1:], lambda room, crate: write(room, crate, to))
    except proved.Stopped as why:
        sys.exit(f'generate.py: {why}')


main(sys.argv[1:])
