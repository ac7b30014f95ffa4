#!/usr/bin/env python3
"""Tests the crate capnp_layout of bindings/rust/capnp_layout.

    layout_crate.py

Runs its tests in place; compiles and runs the Rust of the repository's README and of docs/RUST.md; makes its package, with the printed modules in it, and runs the tests of the package outside of the repository; builds it
without `std`; and asks rustdoc and, if it is there, clippy for remarks. Needs cargo, but no network. CARGO_TARGET_DIR names the folder for what is built; by default one that is removed afterwards. The last line is
`N passed, M failed`."""
import os
import pathlib
import re
import shutil
import subprocess
import sys
import tarfile
import tempfile

TOP = pathlib.Path(__file__).resolve().parents[2]
CRATE = TOP / 'bindings/rust/capnp_layout'
PROVED = TOP / 'generated/rust/src/proved'
# Modules that only the programs of the repository need.
OF_PROGRAMS = ('capnp_edits', 'capnp_layout', 'capnp_show', 'capnp_streams')
results = []


def part(name, fine, output=''):
    results.append(bool(fine))
    if not fine:
        print(f'{name}: failed\n{output[-6000:]}', flush=True)


def cargo(words, folder, target, **more):
    """The status and output of a cargo command, without network."""
    environment = {**os.environ, 'CARGO_TARGET_DIR': str(target), **more}
    run = subprocess.run(['cargo', *words, '--offline', '-j1'], cwd=folder, env=environment, stdin=subprocess.DEVNULL, stdout=subprocess.PIPE, stderr=subprocess.STDOUT, encoding='utf-8', errors='replace')
    return run.returncode, run.stdout


def test(name, folder, target):
    """Runs the tests of the crate in `folder`, and says what they skipped."""
    status, output = cargo(['test'], folder, target)
    counts = [int(it) for it in re.findall(r'^test result: ok\. (\d+) passed', output, re.M)]
    part(name, status == 0 and sum(counts) > 40, output)


def pages(work, target):
    """Compiles and runs the Rust of the repository's README and of docs/RUST.md in doc tests of a crate that depends on both crates
    and on what capnpc-layout-rust wrote for tests/typed."""
    texts = [(TOP / it).read_text(encoding='utf-8') for it in ('README.md', 'docs/RUST.md')]
    examples = sum(len(re.findall(r'^```rust$', it, re.M)) for it in texts)
    folder = work / 'pages'
    (folder / 'src').mkdir(parents=True)
    crates = {'capnp_layout': 'bindings/rust/capnp_layout', 'capnp_canonical': 'bindings/rust', 'typed_rust': 'tests/typed/rust'}
    needed = ''.join(f'{name} = {{ path = "{TOP / path}" }}\n' for name, path in crates.items())
    (folder / 'Cargo.toml').write_text(f'[package]\nname = "pages"\nversion = "0.0.0"\nedition = "2021"\n\n[workspace]\n\n[dependencies]\n{needed}')
    (folder / 'src/lib.rs').write_text(''.join(f'#[doc = include_str!("{TOP / it}")]\npub mod page{i} {{}}\n' for i, it in enumerate(('README.md', 'docs/RUST.md'))))
    status, output = cargo(['test', '--doc'], folder, target)
    counts = [int(it) for it in re.findall(r'^test result: ok\. (\d+) passed', output, re.M)]
    part('the Rust of README.md and docs/RUST.md', status == 0 and sum(counts) == examples > 0, output)
    # what needs the crate `capnp` is a doc test of the crate over it
    tested = re.sub(r'(?m)^//! ?', '', (TOP / 'bindings/rust/capnp/src/lib.rs').read_text(encoding='utf-8'))
    others = [it for text in texts for it in re.findall(r'```rust,ignore\n(.*?)```', text, re.S)]
    part('the Rust of docs/RUST.md that is a doc test elsewhere', others and all(it in tested for it in others), '\n'.join(others))


def printed_modules():
    """The names of the printed files that the package has to contain."""
    names = (it.relative_to(PROVED).as_posix() for it in PROVED.rglob('*.rs'))
    return {it for it in names if it.split('/')[0].removesuffix('.rs') not in OF_PROGRAMS}


def packaged(work, target):
    """Makes the package, compares the printed modules in it, and tests it outside of the repository."""
    subprocess.run([sys.executable, '-B', str(TOP / 'tools/rust/package.py'), str(work / 'crate')], check=True)
    status, output = cargo(['package', '--allow-dirty', '--no-verify'], work / 'crate/capnp_layout', target)
    found = sorted((target / 'package').glob('capnp_layout-*.crate'))
    part('cargo package', status == 0 and len(found) == 1, output)
    if not found:
        return
    with tarfile.open(found[0]) as archive:
        archive.extractall(work, filter='data')
    folder = work / found[0].name.removesuffix('.crate')
    proved = folder / 'src/proved'
    there = {it.relative_to(proved).as_posix() for it in proved.rglob('*.rs')}
    differ = [it for it in there & printed_modules() if (proved / it).read_bytes() != (PROVED / it).read_bytes()]
    part('printed modules in the package', there == printed_modules() and not differ, f'{there ^ printed_modules()} {differ}')
    part('no links in the package', not any(it.is_symlink() for it in folder.rglob('*')))
    test('tests of the package', folder, target)


def main():
    with tempfile.TemporaryDirectory() as work:
        work = pathlib.Path(work)
        target = pathlib.Path(os.environ.get('CARGO_TARGET_DIR') or work / 'target')
        shutil.rmtree(target / 'package', ignore_errors=True)
        test('cargo test', CRATE, target)
        if not shutil.which('capnp'):
            print('skipped: encode and decode of Cap\'n Proto, no capnp')
        pages(work, target)
        packaged(work, target)
        status, output = cargo(['build', '--no-default-features'], CRATE, target, RUSTFLAGS='-D warnings')
        part('without std', status == 0, output)
        status, output = cargo(['doc', '--no-deps'], CRATE, target, RUSTDOCFLAGS='-D warnings')
        part('documentation', status == 0, output)
        if shutil.which('cargo-clippy'):
            status, output = cargo(['clippy', '--all-targets'], CRATE, target, RUSTFLAGS='-D warnings')
            part('clippy', status == 0, output)
        else:
            print('skipped: remarks of clippy, no cargo-clippy')
        sources = [it for it in CRATE.rglob('*.rs') if 'proved' not in it.parts]
        unsafe = [it.name for it in sources if re.search(r'\bunsafe\b(?!_)', it.read_text('utf-8'))]
        part('no unsafe code', unsafe == ['lib.rs'] or not unsafe, f'{unsafe}')
    print(f'{sum(results)} passed, {len(results) - sum(results)} failed')
    return 0 if all(results) else 1


sys.exit(main())
