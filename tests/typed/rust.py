#!/usr/bin/env python3
"""Tests `capnpc-layout-rust`, and what it generates.

    rust.py [--generator PROGRAM] [--schemas N] [--structs S] [--messages M] [--write] [PART..]

The parts, by default all of them:

- `ours`: for `addressbook.capnp`, `fields.capnp` and `recursive.capnp` the generator writes the files of `rust/src`, and with `--values` those of
  `rust/src/values`, byte for byte; and they are as rustfmt writes them. With `--write` it writes these files.
- `package`: the package `rust` is built without a warning of rustc and clippy, and its tests pass.
- `fields`: a program over the code for `fields.capnp` prints M random messages (by default 300), made by `capnp encode`, as
  `capnp decode` prints them: lazily, after a check without the schema, and after one against it. It copies them field by field:
  `capnp decode` prints the copies as it prints the messages, and C++ makes the same canonical words of both. Then bits of
  the messages are altered. After a yes of the check against the schema, checked readers read what lazy ones do; after a
  no, something of the message is refused by another reader.
- `random`: like `fields`, for N random schemas (by default 3) of S structs (by default 20). Each struct in turn is the root of a
  message.
- `large`: the same for schemas of five kinds: with every feature of the language, of a trading system, of a hospital, with default
  values that contain their own types, whose plain values aren't compared, and with 100 structs that refer to one another, 500
  fields, and groups 60 deep.
- `versions`: the code of an old version of a random schema, without the last fields of its structs, and that of the new one
  print and check messages of each other.
- `altered`: the program over the code for `fields.capnp` prints altered messages as `capnp decode` does, or refuses them, and
  refuses what that refuses.
- `bugs`: a program over the code of `fields.capnp` with a planted bug, one of each kind, isn't compiled, or prints or copies
  something else, or its readers disagree.
- `build`: the package `bindings/rust/capnpc_layout_rust/example`, whose build script generates its code, is built and runs; the crate
  for build scripts passes clippy; and it says which program is missing, or what `capnp` refuses.
- `odd`: schemas with odd names and declarations, and a request of a later schema compiler, are compiled without a warning, also with
  plain values, and standard error names what isn't written.
- `files`: the same, by one command, for files that import one another, in folders, two with the same name, some that declare the same
  names, and some with words of languages, with every kind of constant, with scopes in scopes, and with comments that look like code.

The generator is by default `capnpc-layout-rust` at the top. The last line is `N passed, M failed`."""
import argparse
import os
import pathlib
import shlex
import shutil
import subprocess
import sys
import tempfile
from collections import Counter
from random import Random

import messages
import rust_program
import run
import unknown
from schema import Schema

HERE = pathlib.Path(__file__).resolve().parent
LAYOUT = run.TOP / 'bindings/rust/capnp_layout'
BUILD = run.TOP / 'bindings/rust/capnpc_layout_rust'
SCHEMAS = 'addressbook', 'fields', 'recursive'
PARTS = 'ours', 'package', 'fields', 'random', 'large', 'versions', 'altered', 'bugs', 'build', 'odd', 'files'
MANIFEST = f'''[package]
name = "made"
version = "0.0.0"
edition = "2021"

[dependencies]
capnp_layout = {{ path = "{LAYOUT}" }}

[workspace]
'''
# The planted bugs: what is wrong, what is before it, a part of the code, and what takes the place of that.
BUGS = (
    ('offset', 'fn id(', 'self.0.get(5)', 'self.0.get(6)'),
    ('offset', 'fn set_id(', 'self.0.set(5, value)', 'self.0.set(6, value)'),
    ('bit', 'fn flag(', 'self.0.get_bool(0)', 'self.0.get_bool(1)'),
    ('bit', 'fn set_flag(', 'self.0.set_bool(0, value)', 'self.0.set_bool(1, value)'),
    ('sense', 'fn flag_set(', '!self.0', 'self.0'),
    ('default', 'fn short(', '-300', '-301'),
    ('default', 'fn set_port(', '8080', '8081'),
    ('default', 'fn ratio(', 'from_bits(1069547520)', 'from_bits(1069547521)'),
    ('default', 'fn background(', '1u16', '2u16'),
    ('default', 'fn greeting(', 'b"hello"', 'b"hallo"'),
    ('default', 'fn named(', ' 98, ', ' 97, '),
    ('index', 'fn name(', 'get_text(0)', 'get_text(1)'),
    ('index', 'fn set_blob(', 'set_data(2, value)', 'set_data(3, value)'),
    ('index', 'fn inner(', 'get_struct(4)', 'get_struct(5)'),
    ('index', 'fn init_names(', 'init_list(15, count)', 'init_list(16, count)'),
    ('index', 'fn has_names(', 'has(15)', 'has(16)'),
    ('size', 'pub const SIZE', 'data_words: ', 'data_words: 0 * '),
    ('sections', 'In the scope of `Inner`', 'pointers: 2', 'pointers: 1'),
    ('element', 'fn shorts(', 'i16', 'u16'),
    ('tag', 'fn set_radius(', 'self.0.set(27, 1u16)', 'self.0.set(27, 2u16)'),
    ('tag offset', 'fn which(', 'self.0.get::<u16>(', 'self.0.get::<u16>(1 + '),
    ('arm', 'fn which(', '            1 => ', '            7 => '),
    ('variant', 'enum Colour', '0 => Self::Red,\n            1 => Self::Green', '1 => Self::Red,\n            0 => Self::Green'),
    ('number', 'for u16 {', 'Colour::Red => 0,\n            Colour::Green => 1', 'Colour::Red => 1,\n            Colour::Green => 0'),
    ('cleared', 'fn init_side(', 'self.0.set', 'self.0.set(0, 1u8);\n            self.0.set'),
    ('table: a text as any', 'const TABLE', '36, 3, 3, 4, 4,', '36, 0, 3, 4, 4,'),
    ('table: a text as data', 'const TABLE', '36, 3, 3, 4, 4,', '36, 4, 3, 4, 4,'),
    ('table: a text that needn\'t be UTF-8', 'const TABLE', '36, 3, 3, 4, 4,', '36, 2, 3, 4, 4,'),
    ('table: the row of a struct', 'const TABLE', '4, 4, 21, 133,', '4, 4, 21, 21,'),
    ('table: the size of elements', 'const TABLE', '0, 8, 9, 10, 11,', '0, 8, 9, 10, 10,'),
    ('table: a list of structs as any list', 'const TABLE', ' 31, 798, 830,', ' 6, 798, 830,'),
    ('table: elements of a list of lists', 'const TABLE', ' 798, 830,', ' 766, 830,'),
    ('table: the offset of a tag', 'const TABLE', '27, 3, 31, 951', '26, 3, 31, 951'),
    ('table: the number of a member', 'const TABLE', '27, 3, 31, 951', '27, 5, 31, 951'),
    ('table: a member', 'const TABLE', '27, 3, 31, 951', '27, 3, 0, 951'),
    ('table: the members after one', 'const TABLE', '27, 3, 31, 951', '27, 3, 31, 0'),
    ('table: fewer pointers', 'const TABLE', ' 36, 3, 3, 4, 4,', ' 35, 3, 3, 4, 4,'),
    ('row', 'impl g::StructType for Root', 'ROW: u32 = 8', 'ROW: u32 = 1'),
)


def with_values(generator, room):
    """A plug-in that calls the generator for plain values, since `capnp compile` passes no arguments."""
    script = pathlib.Path(room) / 'with-values'
    script.write_text(f'#!/bin/sh\nexec {shlex.quote(str(generator))} --values\n', encoding='utf-8')
    script.chmod(0o755)
    return script


def generate(generator, path, folder):
    """Writes the code for a schema into a folder, and returns the names of its files' modules and what the generator says."""
    ran = subprocess.run(['capnp', 'compile', f'--src-prefix={pathlib.Path(path).parent}', f'-o{generator}:{folder}', path], stderr=subprocess.PIPE, encoding='utf-8')
    if ran.returncode:
        sys.exit(f'rust.py: {path}: {ran.stderr}')
    return sorted(it.stem for it in pathlib.Path(folder).glob('*_capnp.rs')), ran.stderr


def cargo(words, folder, target, **variables):
    """Runs cargo without a registry; whether it succeeded, and what it said."""
    env = {**os.environ, 'CARGO_TARGET_DIR': str(target), 'RUSTFLAGS': '-Dwarnings', **variables}
    ran = subprocess.run(['cargo', *words, '--offline', '--quiet', '-j2'], cwd=folder, env=env, stdin=subprocess.DEVNULL, stdout=subprocess.PIPE, stderr=subprocess.STDOUT, encoding='utf-8', errors='replace')
    return ran.returncode == 0, ran.stdout


class Generated(run.Programs):
    """A program over the generated code of a schema, in a package of its own. If it is quiet, it doesn't print why it failed."""
    is_quiet = False
    has_values = True

    def __init__(self, generator, folder, target, text, stem, roots=None):
        (folder / 'src').mkdir(parents=True)
        path = folder / f'{stem}.capnp'
        path.write_text(text, encoding='utf-8')
        self.folder, self.target, self.file, self.stem = folder, target, path.name, stem
        self.schema = Schema(str(path))
        self.roots = roots or self.schema.structs()
        (module,), _ = generate(with_values(generator, folder), str(path), folder / 'src')
        (folder / 'Cargo.toml').write_text(MANIFEST.replace('"made"', f'"{stem}"'), encoding='utf-8')
        (folder / 'src/main.rs').write_text(rust_program.program(self.schema, module, self.roots), encoding='utf-8')

    def build(self, counts):
        built, said = cargo(['build'], self.folder, self.target)
        counts.say(built, f'{self.file}: the code for {len(self.schema.structs())} structs is compiled without a warning' if built else said[-3000:])
        return built

    def run(self, program, frames):
        ran = subprocess.run([self.target / 'debug' / self.stem, {'printer': 'print', 'copier': 'copy'}.get(program, program)], input=b''.join(frames), stdout=subprocess.PIPE, stderr=subprocess.PIPE)
        if ran.returncode and not self.is_quiet:
            print(ran.stderr.decode(errors='replace')[-3000:])
        return ran.stdout.decode(errors='replace').splitlines()

    def test(self, count, seed, counts):
        if self.build(counts):
            frames = messages.frames(self.schema, self.roots, count, seed)
            self.read(frames, '', counts)
            self.copy(frames, counts)
            self.check(frames, seed, counts)
            if self.has_values:
                self.values(frames, counts)

    def values(self, frames, counts):
        """Whether what plain values are written as is read as what they were made from. Empty texts and lists become null."""
        answers = self.run('value', frames)
        differing = [it for it in answers if it != 'same'][:1]
        holds = len(answers) == len(frames) and not differing
        counts.say(holds, f'{self.file}: {len(frames)} messages are copied by plain values' if holds else f'{self.file}: {differing} {len(answers)}')

    def check(self, frames, seed, counts, times=20):
        """Whether all readers agree on altered messages: on each message altered in this many ways."""
        answers = self.run('check', frames)
        counts.say(answers == ['yes'] * len(frames), f'{self.file}: the check says yes to {len(frames)} messages')
        random = Random(seed)
        answers = self.run('check', [with_altered_bits(it, random) for it in frames * times])
        found = Counter(answers)
        agree = len(answers) == times * len(frames) and set(found) <= {'yes', 'no'} and min(found['yes'], found['no']) > 0
        said = f'{self.file}: all readers agree on {len(answers)} altered messages, of which {found["no"]} are refused'
        counts.say(agree, said if agree else f'{self.file}: {[it for it in found if it not in ("yes", "no")][:3]} {found["yes"]} {found["no"]} {len(answers)}')


def with_altered_bits(frame, random):
    """A frame with some altered bits in words that aren't zero: mostly in the first of these, among which are the pointers of the
    root, and there mostly the bits that say what a pointer leads to."""
    table = 8 * (int.from_bytes(frame[:4], 'little') // 2 + 1)
    made = bytearray(frame)
    words = [it for it in range((len(frame) - table) // 8) if any(frame[table + 8 * it:table + 8 * it + 8])] or [0]
    for _ in range(random.choice((1, 1, 2, 4))):
        word = random.choice(words[:64] if random.random() < .75 else words)
        bit = random.choice((0, 1, 32, 33, 34)) if random.random() < .75 else random.randrange(64)
        made[table + 8 * word + bit // 8] ^= 1 << bit % 8
    return bytes(made)


def ours(options, room, counts):
    for stem, place, generator in ((stem, place, generator) for stem in SCHEMAS
                                   for place, generator in (('src', options.generator), ('src/values', with_values(options.generator, room)))):
        folder = room / 'ours' / place / stem
        folder.mkdir(parents=True)
        (module,), _ = generate(generator, str(HERE / f'{stem}.capnp'), folder)
        made, kept = folder / f'{module}.rs', HERE / 'rust' / place / f'{module}.rs'
        if options.write:
            kept.parent.mkdir(exist_ok=True)
            kept.write_bytes(made.read_bytes())
        counts.say(kept.is_file() and made.read_bytes() == kept.read_bytes(), f'{stem}.capnp: the file is tests/typed/rust/{place}/{kept.name}')
        ran = subprocess.run(['rustfmt', '--edition', '2021', '--check', made], stdout=subprocess.PIPE, encoding='utf-8')
        counts.say(ran.returncode == 0, f'{stem}.capnp: the file is as rustfmt writes it' if ran.returncode == 0 else ran.stdout[:2000])


def package(options, room, counts):
    for words, what in ((['clippy', '--all-targets'], 'no warning of rustc or clippy'), (['test'], 'the tests pass')):
        passed, said = cargo(words, HERE / 'rust', room / 'target')
        counts.say(passed, f'package: {what}' if passed else said[-3000:])


def fields(options, room, counts):
    text = (HERE / 'fields.capnp').read_text(encoding='utf-8')
    Generated(options.generator, room / 'fields', room / 'target', text, 'fields', ['Root']).test(options.messages, 7, counts)


def random(options, room, counts):
    for seed in range(options.schemas):
        text = messages.RandomSchema(100 + seed, options.structs, 12).text
        Generated(options.generator, room / f'random{seed}', room / 'target', text, f'random{seed}').test(options.messages, seed, counts)


def large(options, room, counts):
    texts = {it.stem: it.read_text(encoding='utf-8') for it in sorted((HERE / 'large').glob('*.capnp'))}
    for stem, text in {**texts, 'mutual': messages.mutual()}.items():
        made = Generated(options.generator, room / stem, room / 'target', text, stem)
        # a plain value follows default values once, and the printer a few times
        made.has_values = stem != 'within'
        made.test(options.messages, 5, counts)


def versions(options, room, counts):
    made = messages.RandomSchema(200, options.structs, 12)
    roots = made.structs
    old, new = (Generated(options.generator, room / name, room / 'target', text, name, roots) for name, text in (('old', made.old), ('new', made.text)))
    if old.build(counts) and new.build(counts):
        for reader, writer in (old, new), (new, old):
            frames = messages.frames(writer.schema, roots, options.messages, 9)
            reader.read(frames, f' of {writer.file}', counts)
            reader.check(frames, 9, counts)


def altered(options, room, counts):
    text = (HERE / 'fields.capnp').read_text(encoding='utf-8')
    made = Generated(options.generator, room / 'altered', room / 'target', text, 'altered', ['Root'])
    if made.build(counts):
        made.read_altered(messages.frames(made.schema, made.roots, options.messages, 11), 11, counts)


class Silent(run.Counts):
    """Counts, and says nothing."""

    def say(self, holds, what):
        self.passed, self.failed = self.passed + bool(holds), self.failed + (not holds)


def bugs(options, room, counts):
    text = (HERE / 'fields.capnp').read_text(encoding='utf-8')
    made = Generated(options.generator, room / 'bugs', room / 'target', text, 'bugs', ['Root'])
    made.is_quiet, path = True, made.folder / 'src/bugs_capnp.rs'
    whole = path.read_text(encoding='utf-8')
    frames = messages.frames(made.schema, ['Root'], min(options.messages, 100), 8)
    found = 0
    for what, call, old, new in BUGS:
        at = whole.find(old, max(whole.find(call), 0))
        if call not in whole or at < 0:
            counts.say(False, f'bugs: {call} has no {old}')
            continue
        path.write_text(whole[:at] + new + whole[at + len(old):], encoding='utf-8')
        silent = Silent()
        if made.build(silent):
            made.read(frames, '', silent)
            made.copy(frames, silent)
            made.check(frames, 8, silent, 60)
            made.values(frames, silent)
        found += silent.failed > 0
        if not silent.failed:
            counts.say(False, f'bugs: {what} of {call} is not found')
    counts.say(found == len(BUGS), f'bugs: {found} of {len(BUGS)} planted bugs are found')


def build(options, room, counts):
    example, target, generator = room / 'example', room / 'target', options.generator
    shutil.copytree(BUILD / 'example', example, ignore=shutil.ignore_patterns('target', 'Cargo.lock'))
    manifest = (example / 'Cargo.toml').read_text(encoding='utf-8')
    manifest = manifest.replace('"../../capnp_layout"', f'"{LAYOUT}"').replace('".."', f'"{BUILD}"')
    (example / 'Cargo.toml').write_text(manifest, encoding='utf-8')
    passed, said = cargo(['run'], example, target, CAPNPC_LAYOUT_RUST=generator)
    counts.say(passed and said == '7: Alice\n', f'build: the example prints {said!r}')
    passed, said = cargo(['clippy', '--all-targets'], BUILD, target)
    counts.say(passed, 'build: no warning of rustc or clippy' if passed else said[-3000:])
    schema = example / 'schema/shop.capnp'
    for what, variables, wanted in (
            ('a generator that is not there', {'CAPNPC_LAYOUT_RUST': '/nowhere/generator'}, 'CAPNPC_LAYOUT_RUST is /nowhere/generator: '),
            ('no capnp', {'CAPNP': '/nowhere/capnp', 'CAPNPC_LAYOUT_RUST': generator}, "/nowhere/capnp isn't there: it is in Debian's package capnproto"),
            ('a wrong schema', {'CAPNPC_LAYOUT_RUST': generator}, 'shop.capnp:1:')):
        if what == 'a wrong schema':
            schema.write_text('strukt', encoding='utf-8')
        passed, said = cargo(['build'], example, target, **variables)
        counts.say(not passed and wanted in said, f'build: {what} is named' if wanted in said else f'build: {what}: {said[-1000:]}')


def odd(options, room, counts):
    schemas = sorted((HERE / 'odd').glob('*.capnp'))
    (room / 'unknown').mkdir()
    status, unknown_said = unknown.generate(options.generator, room / 'unknown')
    counts.say(status == 0, 'odd: what a later schema compiler asks for')
    said = compiled(options.generator, schemas, room / 'odd', room / 'target', counts, room / 'unknown') + unknown_said
    wanted = (HERE / 'odd/skipped.txt').read_text(encoding='utf-8')
    counts.say(said == wanted, 'odd: standard error names what is not written' if said == wanted else f'odd: standard error is {said}')
    compiled(with_values(options.generator, room), [*schemas, HERE / 'rust/values.capnp'], room / 'odd_values', room / 'target', counts)


def files(options, room, counts):
    for name, generator in ('files', options.generator), ('files_values', with_values(options.generator, room)):
        said = run.generate_files(generator, room / name / 'made')
        wanted = (HERE / 'files/skipped.txt').read_text(encoding='utf-8')
        counts.say(said == wanted, f'{name}: standard error names what is not written' if said == wanted else f'{name}: standard error is {said}')
        compiled(generator, [], room / name, room / 'target', counts, room / name / 'made')


def compiled(generator, schemas, folder, target, counts, made=None):
    """Compiles the code for schemas, with that of a folder `made`, and returns what the generator says."""
    (folder / 'src').mkdir(parents=True)
    for path in made.glob('*_capnp*.rs') if made else ():
        shutil.copy(path, folder / 'src')
    said = ''.join(generate(generator, str(path), folder / 'src')[1] for path in schemas)
    modules = sorted(it.stem for it in (folder / 'src').glob('*_capnp*.rs'))
    (folder / 'src/main.rs').write_text(''.join(f'mod {it};\n' for it in modules) + '\nfn main() {}\n', encoding='utf-8')
    (folder / 'Cargo.toml').write_text(MANIFEST.replace('"made"', f'"{folder.name}"'), encoding='utf-8')
    passed, text = cargo(['clippy'], folder, target)
    counts.say(passed, f'{folder.name}: the code for {len(modules)} schemas is compiled without a warning of rustc or clippy' if passed else text[-3000:])
    return said


def main():
    parser = argparse.ArgumentParser(description=__doc__, formatter_class=argparse.RawDescriptionHelpFormatter)
    parser.add_argument('--generator', default=str(run.TOP / 'capnpc-layout-rust'))
    parser.add_argument('--schemas', type=int, default=3)
    parser.add_argument('--structs', type=int, default=20)
    parser.add_argument('--messages', type=int, default=300)
    parser.add_argument('--write', action='store_true')
    parser.add_argument('parts', nargs='*', choices=[[], *PARTS], metavar='PART')
    options = parser.parse_args()
    options.generator = os.path.abspath(options.generator)
    counts = run.Counts()
    with tempfile.TemporaryDirectory(prefix='typed-rust-') as room:
        for name in options.parts or PARTS:
            globals()[name](options, pathlib.Path(room), counts)
    print(f'{counts.passed} passed, {counts.failed} failed')
    return 1 if counts.failed or not counts.passed else 0


if __name__ == '__main__':
    sys.exit(main())
