#!/usr/bin/env python3
"""Builds programs of this repository by cargo over the crate of generated/rust, and tests them as the proved ones are tested.

    programs.py [--debug] [--keep FOLDER] [NAME..]

Prints the programs and the libraries that only they need into a temporary folder, or FOLDER, with the printer of tools/rust;
runtime/ has what they take from Rattle's library in addition. NAMEs choose some of the tests: features, typed, vectors, streams.
Streams also takes `stream_runs`, which tests/crates/run.py builds. With --debug, numbers that overflow end a program. Two processes
build at most.

Of the runs of streams those with a closed input aren't counted: Rust opens `/dev/null` in its place before `main` runs. The last
line is `N passed, M failed`."""
import argparse
import os
import pathlib
import re
import shutil
import subprocess
import sys
import tempfile

TOP = pathlib.Path(__file__).resolve().parents[2]
HERE = TOP / 'tests/rust'
sys.path += [str(TOP / 'tests'), str(TOP / 'tools'), str(TOP / 'tools/rust')]

import crates.run as workspace
from libraries import Crates
from printer import crate, library
from printer.departures import Departures

PROGRAMS = 'layout_tool', 'capnp_canon', 'example_typed'
MANIFEST = '''[package]
name = "programs"
version = "0.0.0"
edition = "2024"

[dependencies]
{crate} = {{ path = "{path}", features = ["programs"] }}

[workspace]
'''
# What the support and the runtime have in place of `std` and of libraries of the toolchain.
RUNTIME = 'env', 'fs', 'io', 'process', 'rt', 'time'
# Modules that only other programs need.
LEFT_OUT = {'capnpc_schema': ('files', 'input')}
# Calls of slices that Rust has under the same name, and their names in the runtime.
RENAMED = {'.to_vec(alloc)': '.copied_in(alloc)', '.to_vec(self.alloc)': '.copied_in(self.alloc)', '.names.sort()': '.names.sort_texts()'}
ALLOWED = '#![allow(dead_code, unused_imports, unused_labels, unused_variables)]\n#![forbid(unsafe_code)]\n'
COUNTS = re.compile(r'(\d+) passed, (\d+) failed')


def with_root(text, lines):
    """A root file with these lines after its first comment."""
    head = re.match(r'(?:(?://!.*)?\n)*', text)[0]
    return f'{head}{lines}\n{text[len(head):]}'


def needed_sources(name):
    """The sources of a crate, without modules that only other programs need."""
    left_out = LEFT_OUT.get(name, ())
    found = {path: text for path, text in library.sources_of(TOP / 'crates' / name).items() if path.removesuffix('.rt') not in left_out}
    return {path: re.sub(rf'(?m)^pub mod ({"|".join(left_out)});\n', '', text) if left_out else text for path, text in found.items()}


def files():
    """The files of a package that has the programs, and a library of what they need in addition to the crate."""
    crates = Crates(TOP)
    needed = dict.fromkeys(it for name in PROGRAMS for it in crates.below(name))
    extra = [it for it in needed if it not in crate.LIBRARIES + crate.OF_PROGRAMS]
    texts = {name: library.without_contracts(name, needed_sources(name), Departures([])) for name in (*extra, *PROGRAMS)}
    yield 'Cargo.toml', MANIFEST.format(crate=crate.NAME, path=TOP / 'generated/rust')
    yield 'src/lib.rs', ALLOWED + '#[macro_use]\npub mod runtime;\n' + ''.join(f'pub mod {it};\n' for it in extra)
    for path in (HERE / 'runtime').glob('*.rs'):
        yield f'src/runtime/{path.name}', path.read_text(encoding='utf-8')
    for root, names in ('crate', extra), ('programs', PROGRAMS):
        libraries = {it: f'{crate.NAME}::{it}' for it in needed if it not in extra}
        libraries.update({it: f'{root}::{it}' for it in extra}, hex=f'{crate.NAME}::support::hex', anyhow=f'{root}::runtime::anyhow')
        support = {**library.support_of(f'{crate.NAME}::support'), **{it: f'{root}::runtime' for it in RUNTIME}}
        for name in names:
            own = f'crate::{name}' if name in extra else 'crate'
            for path, text in texts[name].items():
                text = library.with_paths(text, own, libraries, support, False)
                if name in LEFT_OUT:
                    text = with_root(text, 'use crate::runtime::slices::*;\n')
                    for call, other in RENAMED.items():
                        text = text.replace(call, other)
                if name in extra:
                    yield f'src/{library.file_of(name, path)}', text
                else:
                    text = with_root(text, f'{ALLOWED}#[macro_use]\nextern crate programs;\n') if path == 'main.rt' else text
                    yield f'src/bin/{name}/{path[:-3]}.rs', text


def cargo(words, folder, **settings):
    """Runs cargo without a registry; whether it succeeded."""
    run = subprocess.run(['cargo', *words, '--offline', '-j2', '--quiet'], cwd=folder, env={**os.environ, **settings}, stdin=subprocess.DEVNULL)
    return run.returncode == 0


def counted(name, command):
    """Runs a test and shows what it prints; how many passed and failed according to its last line."""
    run = subprocess.run([sys.executable, '-B', *map(str, command)], stdin=subprocess.DEVNULL, stdout=subprocess.PIPE, encoding='utf-8', errors='replace')
    lines = run.stdout.splitlines() or ['']
    found = COUNTS.fullmatch(lines[-1])
    passed, failed = (int(it) for it in found.groups()) if found else (0, 1)
    # Rust's runtime opens what is closed
    opened = sum(bool(re.search(r'^a closed input\b', it)) for it in lines) if name == 'streams' else 0
    if failed > opened:
        print(*(f'    {it}' for it in lines[-40:]), sep='\n', flush=True)
    return passed, failed - min(opened, failed)


def features(_, target):
    """Whether the crate builds with each of its features, without a warning."""
    with tempfile.TemporaryDirectory(prefix='features-') as room:
        folder = shutil.copytree(TOP / 'generated/rust', f'{room}/crate')
        found = [cargo(['build', '--no-default-features', '--features', it], folder, CARGO_TARGET_DIR=target, RUSTFLAGS='-Dwarnings')
                 for it in ('', 'std', 'programs')]
    return sum(found), len(found) - sum(found)


def typed(program, _):
    """Whether `example_typed` prints what it is proved to print, and what `dev/test` expects."""
    folder = TOP / 'crates/example_typed'
    words = (folder / 'args').read_text(encoding='utf-8').split()
    with open(folder / 'stdin', 'rb') as data:
        run = subprocess.run([program('example_typed'), *words], stdin=data, stdout=subprocess.PIPE)
    is_right = run.returncode == 0 and run.stdout == (folder / 'stdout').read_bytes()
    return int(is_right), int(not is_right)


def vectors(program, _):
    return counted('vectors', [TOP / 'tests/vectors/run.py', program('layout_tool'), '--show', '1000'])


def streams(program, _):
    workspace.build()
    return counted('streams', [TOP / 'tests/streams/run.py', program('capnp_canon'), workspace.STREAM_RUNS, '--show', '1000'])


TESTS = {
    'features': features,
    'typed': typed,
    'vectors': vectors,
    'streams': streams,
}


def main():
    parser = argparse.ArgumentParser(description=__doc__, formatter_class=argparse.RawDescriptionHelpFormatter)
    parser.add_argument('--debug', action='store_true')
    parser.add_argument('--keep')
    parser.add_argument('names', nargs='*', choices=[[], *TESTS], metavar='NAME')
    options = parser.parse_args()
    with tempfile.TemporaryDirectory(prefix='programs-') as room:
        folder = pathlib.Path(options.keep or room).resolve()
        for name, text in files():
            (folder / name).parent.mkdir(parents=True, exist_ok=True)
            (folder / name).write_text(text, encoding='utf-8')
        target = folder / 'target'
        if not cargo(['build', *([] if options.debug else ['--release'])], folder, CARGO_TARGET_DIR=str(target)):
            sys.exit('the programs aren\'t built\n0 passed, 1 failed')
        passed = failed = 0
        for name, test in TESTS.items():
            if name in (options.names or TESTS):
                more = test(lambda it: target / ('debug' if options.debug else 'release') / it, str(target))
                print(f'{name}: {more[0]} passed, {more[1]} failed', flush=True)
                passed, failed = passed + more[0], failed + more[1]
    print(f'{passed} passed, {failed} failed')
    return 1 if failed or not passed else 0


sys.exit(main())
