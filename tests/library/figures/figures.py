#!/usr/bin/env python3
"""Prints what a call of the library costs in C++, Rust, Python and JavaScript, on a small message and on one of 1 MB: the time of the
canonical words and of their digest, and that of hashing the same words by a library of the language's users, and ratios to the
latter.

    figures.py [TREE]

TREE is another version of the repository, with which every time is compared, too. Builds the C++ with g++ and libcrypto, the Rust
with cargo, and the C of both trees with make. Needs capnp, which makes the messages. Nothing is asserted."""
import os
import pathlib
import subprocess
import sys
import tempfile

TOP = pathlib.Path(__file__).resolve().parents[3]
HERE = pathlib.Path(__file__).resolve().parent
# The messages: a name, the number of people, the calls of a round.
MESSAGES = ('small', 2, 20000), ('1 MB', 7000, 20)


def run(*command, **settings):
    return subprocess.run(list(map(str, command)), check=True, stdout=subprocess.PIPE, **settings).stdout


def write_message(file, people):
    """An address book as `capnp encode` writes it."""
    schema = TOP / 'tests/typed/addressbook.capnp'
    person = '(id = %d, name = "Alice %d", email = "alice@example.com", phones = [(number = "555-1212", type = mobile)], employment = (school = "MIT"))'
    text = f'(people = [{", ".join(person % (it, it) for it in range(people))}])'
    file.write_bytes(run('capnp', 'encode', schema, 'AddressBook', input=text.encode()))


def in_cpp(tree, room):
    program = room / 'in_cpp'
    run('g++', '-std=c++17', '-O2', f'-I{tree}/bindings/c', f'-I{tree}/bindings/cpp', '-o', program, HERE / 'figures.cpp', room / 'libcapnp_canonical.a', '-lcrypto')
    return lambda *words: run(program, *words)


def in_rust(tree, room):
    folder = room / 'rust'
    (folder / 'src').mkdir(parents=True)
    (folder / 'src/main.rs').write_bytes((HERE / 'figures.rs').read_bytes())
    (folder / 'Cargo.toml').write_text(
        f'[package]\nname = "figures"\nversion = "0.0.0"\nedition = "2024"\n[dependencies]\ncapnp_canonical = {{ path = "{tree}/bindings/rust" }}\n[workspace]\n')
    run('cargo', 'build', '-q', '--release', '--offline', cwd=folder, env={**os.environ, 'CARGO_TARGET_DIR': str(room / 'target')})
    return lambda *words: run(room / 'target/release/figures', *words)


def in_python(tree, room):
    settings = {**os.environ, 'PYTHONPATH': f'{tree}/bindings/python', 'CAPNP_CANONICAL_LIBRARY': str(next(room.glob('libcapnp_canonical.so')))}
    return lambda *words: run(sys.executable, '-B', HERE / 'figures_of.py', *words, env=settings)


def in_javascript(tree, room):
    package = tree / 'bindings/js'
    entry = next(it for it in (package / 'node.js', package / 'index.js') if it.is_file())
    return lambda *words: run('node', HERE / 'figures.mjs', entry, *words)


def programs(tree, room):
    """For each language, what runs its program."""
    room.mkdir()
    run('make', '-s', '-C', tree, f'BUILD={room}', room / 'libcapnp_canonical.a', 'all')
    makers = {'C++': in_cpp, 'Rust': in_rust, 'Python': in_python, 'JavaScript': in_javascript}
    return {language: make(tree, room) for language, make in makers.items()}


def main(words):
    with tempfile.TemporaryDirectory(prefix='figures-') as name:
        room = pathlib.Path(name)
        trees = [programs(tree, room / f'tree{number}') for number, tree in enumerate([TOP, *(pathlib.Path(it).resolve() for it in words)])]
        print('language, message: microseconds of words and digest; of hashing; ratios of the two to hashing; ratios of the two to the other tree')
        for message, people, count in MESSAGES:
            file = room / 'message'
            write_message(file, people)
            for language in trees[0]:
                taken = [{call: float(it[language](file, call, count)) for call in ('words', 'digest')} for it in trees]
                hashing = float(trees[0]['C++' if language == 'Rust' else language](file, 'hash', count))
                own = taken[0]
                print(f'{language}, {message} ({file.stat().st_size} bytes): {own["words"] / 1000:.2f} {own["digest"] / 1000:.2f}; {hashing / 1000:.2f}; '
                      + ' '.join(f'{own[call] / hashing:.2f}' for call in own) + '; '
                      + ' '.join(f'{own[call] / other[call]:.2f}' for other in taken[1:] for call in own), flush=True)


main(sys.argv[1:])
