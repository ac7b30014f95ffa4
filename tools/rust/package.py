#!/usr/bin/env python3
"""Writes the crates capnp_layout and capnp_canonical as `cargo package` needs them, in a workspace.

    package.py FOLDER

In the repository capnp_layout names the printed modules by a path outside of its folder, which no package can contain; and
capnp_canonical has capnp_layout in its own folder. FOLDER is made; it may not be there yet. Then `cargo package` or
`cargo publish` runs in it: with `--workspace` for both crates, with `-p NAME` for one."""
import pathlib
import shutil
import sys

TOP = pathlib.Path(__file__).resolve().parents[2]
CRATES = {'capnp_layout': TOP / 'bindings/rust/capnp_layout', 'capnp_canonical': TOP / 'bindings/rust'}
PROVED = TOP / 'generated/rust/src/proved'
# What capnp_canonical's folder has, and its package doesn't.
NOT_PACKAGED = ('target', 'capnp', 'capnp_layout')
# What a file of the repository has, and what it has in a package.
CHANGES = {
    'capnp_layout/src/lib.rs': ('''// In the repository; a package has the modules in `src/proved`, and not this line.
#[path = "../../../../generated/rust/src/proved/mod.rs"]
''', ''),
    'capnp_layout/Cargo.toml': ('''
# A workspace of its own, wherever it is built.
[workspace]
''', ''),
    'capnp_canonical/Cargo.toml': ('path = "capnp_layout"', 'path = "../capnp_layout"'),
}
WORKSPACE = '''[workspace]
members = ["capnp_layout", "capnp_canonical"]
resolver = "2"
'''


def write(folder):
    """Writes the workspace into this folder."""
    for name, crate in CRATES.items():
        shutil.copytree(crate, folder / name, ignore=shutil.ignore_patterns('Cargo.lock', *NOT_PACKAGED))
    shutil.copytree(PROVED, folder / 'capnp_layout/src/proved')
    (folder / 'Cargo.toml').write_text(WORKSPACE, encoding='utf-8')
    for name, (old, new) in CHANGES.items():
        text = (folder / name).read_text(encoding='utf-8')
        if text.count(old) != 1:
            sys.exit(f'package.py: {name} does not have once: {old}')
        (folder / name).write_text(text.replace(old, new), encoding='utf-8')


if __name__ == '__main__':
    if len(sys.argv) != 2:
        sys.exit(__doc__)
    write(pathlib.Path(sys.argv[1]).resolve())
