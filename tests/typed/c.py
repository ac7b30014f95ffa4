#!/usr/bin/env python3
"""Tests `capnpc-layout-c`, and what it generates.

    c.py [--generator PROGRAM] [--library FILE.c] [--schemas N] [--structs S] [--messages M] [--write] [PART..]

The parts, by default all of them:

- `ours`: for `addressbook.capnp` and `fields.capnp` the generator writes the files of `c`, byte for byte. With `--write` it writes
  these files.
- `headers`: these files are compiled as C99 and C++11, by gcc and by clang, without a warning.
- `book`: `c/print.c` prints random address books as `capnp decode --short` does, and `c/rebuild.c` writes the bytes of `capnp
  encode` for them, field by field and as copies.
- `fields`: a program over the code for `fields.capnp` prints M random messages (by default 300), made by `capnp encode`, as
  `capnp decode` prints them, with and without a check before. It copies them field by field: `capnp decode` prints the copies as
  it prints the messages, and C++ makes the same canonical words of both. The sanitizers of addresses and of undefined behaviour
  find nothing.
- `random`: like `fields`, for N random schemas (by default 3) of S structs (by default 20). Each struct in turn is the root of a
  message.
- `large`: the same for schemas of five kinds: with every feature of the language, of a trading system, of a hospital, with default
  values that contain their own types, and with 100 structs that refer to one another, 500 fields, and groups 60 deep.
- `versions`: the code of an old version of a random schema, without the last fields of its structs, and that of the new one
  print messages of each other.
- `altered`: the program over the code for `fields.capnp` prints altered messages as `capnp decode` does, or refuses them, and
  refuses what that refuses.
- `checks`: random messages of `fields.capnp` and `kinds.capnp`, and copies of them with random changes, are checked against the schema. Each
  message of `capnp encode` conforms. After a yes no getter is refused, and `capnp decode` decodes the message, except for two faults of
  landing pads that this library doesn't test. After a no, a getter of a reader without a check is refused, or `capnp_validate`, or `capnp
  decode` fails. A planted bug in a table, one for each kind of a pointer and for each test of a union, changes an answer.
- `names`: pointers of an address book that lead to something else are refused with the names of their fields.
- `bugs`: a program over the code of `fields.capnp` with a planted bug, one of each kind, isn't compiled, or prints or copies
  something else.
- `annotated`: names that annotations give are those of the code, and standard error names those that can't be used.
- `odd`: the code for schemas with odd names and declarations, and for a request of a later schema compiler, is compiled like
  `headers`, and standard error names what isn't written.
- `files`: the same, by one command, for files that import one another, in folders, two with the same name, some that declare the same
  names, and some with words of languages, with every kind of constant, with scopes in scopes, and with comments that look like code.

The generator is by default `capnpc-layout-c` at the top, and the library `generated/capnp_layout.c`. The last line is `N passed,
M failed`."""
import argparse
import itertools
import pathlib
import random as random_numbers
import re
import subprocess
import sys
import tempfile

import c_program
import messages
import run
import unknown
from schema import Schema

HERE = pathlib.Path(__file__).resolve().parent
BINDINGS = run.TOP / 'bindings/c'
SCHEMAS = 'addressbook', 'fields'
PARTS = 'ours', 'headers', 'book', 'fields', 'random', 'large', 'versions', 'altered', 'checks', 'names', 'bugs', 'annotated', 'odd', 'files'
STRICT = '-Wall -Wextra -Wpedantic -Wconversion -Wshadow -Werror'.split()
COMPILERS = ('gcc', '-std=c99'), ('clang', '-std=c99'), ('g++', '-std=c++11', '-x', 'c++'), ('clang++', '-std=c++11', '-x', 'c++')
# The planted bugs: what is wrong, what is before it, a part of the code, and what takes the place of that.
BUGS = (
    ('offset', 'Root_id(', ', 20, 0)', ', 24, 0)'),
    ('offset', 'Root_set_id(', ', 20, value, 0)', ', 24, value, 0)'),
    ('bit', 'Root_flag(', ', 0, false)', ', 1, false)'),
    ('bit', 'Root_set_flag(', ', 0, value', ', 1, value'),
    ('sense', 'Root_flagSet(', 'true', 'false'),
    ('default', 'Root_short(', '-300', '-301'),
    ('default', 'Root_set_port(', '8080', '8081'),
    ('default', 'Root_ratio(', '(1069547520)', '(1069547521)'),
    ('default', 'Root_set_background(', 'value, 1)', 'value, 2)'),
    ('default', 'Root_default_greeting_bytes[]', ' 101,', ' 100,'),
    ('length', 'Root_default_greeting_bytes[]', '1, 0, 0, 0, 50,', '1, 0, 0, 0, 42,'),
    ('default', 'Root_default_named_bytes[]', ' 98,', ' 97,'),
    ('index', 'Root_name(', '&of->reader, 0)', '&of->reader, 1)'),
    ('index', 'Root_set_blob(', '&of->it, 2,', '&of->it, 3,'),
    ('index', 'Root_inner(', '&of->reader, 4)', '&of->reader, 5)'),
    ('index', 'Root_init_names(', '&of->it, 15,', '&of->it, 16,'),
    ('index', 'Root_has_names(', '&of->reader, 15)', '&of->reader, 16)'),
    ('sections', 'Root_open_inner(', '&of->it, 4, 1, 2)', '&of->it, 4, 0, 2)'),
    ('sections', 'Root_shape_init_corners(', 'count, 1, 2)', 'count, 0, 2)'),
    ('element', 'Root_shorts(', 'CAPNP_TWO_BYTES', 'CAPNP_FOUR_BYTES'),
    ('tag', 'Root_shape_set_radius(', ', 1, 0);', ', 2, 0);'),
    ('member', 'Root_shape_radius(', ', 1);', ', 2);'),
    ('tag offset', 'Root_shape_get_which(', 'reader, ', 'reader, 2 + '),
    ('number', 'enum Root_shape_which', 'radius = 1', 'radius = 7'),
    ('cleared', 'Root_shape_init_side(', 'of->it, 4 * 14, 0, 0);', 'of->it, 0, 77, 0);'),
)


def generate(generator, path, folder):
    """Writes the header for a schema into a folder, and returns its name and what the generator says."""
    ran = subprocess.run(['capnp', 'compile', f'-I{BINDINGS}', f'--src-prefix={pathlib.Path(path).parent}', f'-o{generator}:{folder}', path], stderr=subprocess.PIPE, encoding='utf-8')
    if ran.returncode:
        sys.exit(f'c.py: {path}: {ran.stderr}')
    return f'{pathlib.Path(path).name}.h', ran.stderr


def compiled(words):
    """Runs a compiler; whether it succeeded, and what it said."""
    ran = subprocess.run([str(it) for it in words], stdout=subprocess.PIPE, stderr=subprocess.STDOUT, encoding='utf-8', errors='replace')
    return ran.returncode == 0, ran.stdout[:3000]


def library(options, room):
    """The compiled library."""
    made = room / 'capnp_layout.o'
    if not made.is_file():
        passed, said = compiled(['gcc', '-std=c11', '-O1', f'-I{BINDINGS}', '-c', '-o', made, options.library])
        if not passed:
            sys.exit(f'c.py: {said}')
    return made


class Generated(run.Programs):
    """A program over the generated code of a schema."""
    says_after = True

    def __init__(self, options, room, name, text, roots=None):
        folder = room / name
        folder.mkdir()
        path = folder / f'{name}.capnp'
        path.write_text(text, encoding='utf-8')
        self.folder, self.file, self.library, self.is_quiet = folder, path.name, library(options, room), False
        self.schema = Schema(str(path))
        self.roots = roots or self.schema.structs()
        self.header, _ = generate(options.generator, str(path), folder)
        (folder / 'main.c').write_text(c_program.program(self.schema, self.header, (folder / self.header).read_text(encoding='utf-8'), self.roots), encoding='utf-8')

    def build(self, counts):
        words = ['gcc', '-std=c99', '-g', '-fsanitize=address,undefined', '-fno-sanitize-recover', *STRICT, f'-I{BINDINGS}', f'-I{self.folder}']
        built, said = compiled([*words, '-o', self.folder / 'program', self.folder / 'main.c', self.library])
        counts.say(built, f'{self.file}: the code for {len(self.schema.structs())} structs is compiled without a warning' if built else said)
        return built

    def run(self, program, frames):
        ran = subprocess.run([self.folder / 'program', {'printer': 'print', 'copier': 'copy'}.get(program, program)], input=b''.join(frames), stdout=subprocess.PIPE, stderr=subprocess.PIPE)
        if ran.returncode and not self.is_quiet:
            print(ran.stderr.decode(errors='replace')[-3000:])
        return ran.stdout.decode(errors='replace').splitlines() if not ran.returncode else []

    def test(self, count, seed, counts):
        if self.build(counts):
            frames = messages.frames(self.schema, self.roots, count, seed)
            self.read(frames, '', counts)
            self.copy(frames, counts)


def ours(options, room, counts):
    for stem in SCHEMAS:
        folder = room / f'ours_{stem}'
        folder.mkdir()
        header, _ = generate(options.generator, str(HERE / f'{stem}.capnp'), folder)
        made, kept = folder / header, HERE / 'c' / header
        if options.write:
            kept.write_bytes(made.read_bytes())
        counts.say(kept.is_file() and made.read_bytes() == kept.read_bytes(), f'{stem}.capnp: the file is tests/typed/c/{header}')


def strictly(folder, headers, room, counts, what):
    """Compiles a file that includes each of these headers, by each compiler."""
    source = room / 'included.c'
    for compiler in COMPILERS:
        said = ''
        for header in headers:
            source.write_text(f'#include "{header}"\n', encoding='utf-8')
            said += compiled([*compiler, *STRICT, f'-I{BINDINGS}', f'-I{folder}', '-c', '-o', room / 'included.o', source])[1]
        counts.say(not said, f'{what}: {len(headers)} headers are compiled without a warning by {" ".join(compiler[:2])}' if not said else said)


def headers(options, room, counts):
    strictly(HERE / 'c', [f'{it}.capnp.h' for it in SCHEMAS], room, counts, 'headers')


def book(options, room, counts):
    schema, programs = HERE / 'addressbook.capnp', {}
    for name in 'print', 'rebuild':
        programs[name] = room / name
        words = ['gcc', '-std=c99', '-g', '-fsanitize=address,undefined', *STRICT, f'-I{BINDINGS}', f'-I{HERE / "c"}']
        built, said = compiled([*words, '-o', programs[name], HERE / f'c/{name}.c', library(options, room)])
        counts.say(built, f'book: {name}.c is compiled without a warning' if built else said)
        if not built:
            return
    same = {'print': 0, 'rebuild': 0, 'copy': 0}
    for seed in range(50):
        text = subprocess.run([sys.executable, run.TOP / 'tests/layout_c/book.py', str(seed), '5'], stdout=subprocess.PIPE, check=True).stdout
        frame = subprocess.run(['capnp', 'encode', schema, 'AddressBook'], input=text, stdout=subprocess.PIPE, check=True).stdout
        shown = subprocess.run(['capnp', 'decode', '--short', schema, 'AddressBook'], input=frame, stdout=subprocess.PIPE, check=True).stdout
        for name, words, wanted in ('print', ['print'], shown), ('rebuild', ['rebuild'], frame), ('copy', ['rebuild', '16', 'copy'], frame):
            same[name] += subprocess.run([programs[words[0]], *words[1:]], input=frame, stdout=subprocess.PIPE).stdout == wanted
    counts.say(same['print'] == 50, f'book: {same["print"]} of 50 books are printed as capnp decode --short prints them')
    counts.say(same['rebuild'] == 50, f'book: {same["rebuild"]} of 50 books are built with the bytes of capnp encode')
    counts.say(same['copy'] == 50, f'book: {same["copy"]} of 50 books are validated and copied with the bytes of capnp encode')


def fields(options, room, counts):
    text = (HERE / 'fields.capnp').read_text(encoding='utf-8')
    Generated(options, room, 'fields', text, ['Root']).test(options.messages, 7, counts)


def random(options, room, counts):
    for seed in range(options.schemas):
        text = messages.RandomSchema(100 + seed, options.structs, 12).text
        Generated(options, room, f'random{seed}', text).test(options.messages, seed, counts)


def large(options, room, counts):
    texts = {it.stem: it.read_text(encoding='utf-8') for it in sorted((HERE / 'large').glob('*.capnp'))}
    for stem, text in {**texts, 'mutual': messages.mutual()}.items():
        Generated(options, room, stem, text).test(options.messages, 5, counts)


def versions(options, room, counts):
    made = messages.RandomSchema(200, options.structs, 12)
    old, new = (Generated(options, room, name, text, made.structs) for name, text in (('old', made.old), ('new', made.text)))
    if old.build(counts) and new.build(counts):
        for reader, writer in (old, new), (new, old):
            reader.read(messages.frames(writer.schema, made.structs, options.messages, 9), f' of {writer.file}', counts)


def altered(options, room, counts):
    text = (HERE / 'fields.capnp').read_text(encoding='utf-8')
    made = Generated(options, room, 'altered', text, ['Root'])
    if made.build(counts):
        made.read_altered(messages.frames(made.schema, made.roots, options.messages, 11), 11, counts)


# Faults of two-word landing pads that C++ refuses, and this library doesn't.
OF_PADS = b'Second word of double-far pad must be far pointer', b'double-far pointer to unknown segment'


class Checked(Generated):
    """A program that checks messages of a schema, all of one root."""

    def answers(self, frames, *words):
        """What it answers to each message, in words; None if it fails."""
        ran = subprocess.run([self.folder / 'program', 'check', *map(str, words)], input=b''.join(frames), stdout=subprocess.DEVNULL, stderr=subprocess.PIPE)
        found = [line.split(maxsplit=8) for line in ran.stderr.decode(errors='replace').splitlines()]
        if ran.returncode or len(found) != len(frames):
            print(ran.stderr.decode(errors='replace')[-2000:])
            return None
        return found

    def decode(self, frames):
        return subprocess.run(['capnp', 'decode', self.schema.path, self.roots[0]], input=b''.join(frames), stdout=subprocess.PIPE, stderr=subprocess.PIPE)

    def undecoded(self, frames):
        """The errors of `capnp decode` for those of the messages that it refuses."""
        ran = self.decode(frames)
        if ran.returncode == 0:
            return []
        half = len(frames) // 2
        return self.undecoded(frames[:half]) + self.undecoded(frames[half:]) if half else [ran.stderr]

    def table(self):
        """The words of the table."""
        text = (self.folder / self.header).read_text(encoding='utf-8')
        return [int(it) for it in re.search(r'capnp_table_\w+\[\] = \{([^}]*)\}', text)[1].split(',')]

    def compare(self, frames, changed, counts):
        found = self.answers(frames + changed)
        counts.say(found is not None, f'{self.file}: {len(frames)} messages and {len(changed)} altered ones are checked, and read')
        if found is None:
            return
        yes = [it for it, answer in zip(changed, found[len(frames):]) if answer[0] == 'yes']
        counts.say(all(answer[0] == 'yes' for answer in found[:len(frames)]), f'{self.file}: the messages of capnp encode conform')
        said = self.undecoded(yes)
        counts.say(len(yes) > 100 and all(any(it in one for it in OF_PADS) for one in said), f'{self.file}: {len(yes)} altered messages that conform are decoded')
        # neither a getter nor capnp_validate refuses these
        alone = [it for it, answer in zip(changed, found[len(frames):]) if answer[0] == 'no' and answer[6] == '0' and answer[7] == '0']
        of_kind = sum(answer[0] == 'no' and answer[7] == '0' for answer in found)
        counts.say(of_kind > 20 and all(self.decode([it]).returncode for it in alone[:100]), f'{self.file}: {len(found) - len(frames) - len(yes)} that do not are refused by others; {of_kind} are sound')

    def crafted(self):
        """Messages of a root with each pointer in turn a capability, or a struct without sections, or a list of one of these, for each
        number of its unions."""
        frame = subprocess.run(['capnp', 'encode', self.schema.path, self.roots[0]], input=b'()', stdout=subprocess.PIPE, check=True).stdout
        root, end = int.from_bytes(frame[8:16], 'little'), len(frame) // 8 - 1
        data, pointers = root >> 32 & 0xffff, root >> 48
        tags = {at: most for at, most in tags_of(self.table()).items() if at < 4 * data}
        for numbers in itertools.product(*(range(most + 2) for most in tags.values())):
            for at, word, is_list in itertools.product(range(1 + data, 1 + data + pointers), (3, 0xfffffffc), (False, True)):
                made = bytearray(frame)
                for tag, number in zip(tags, numbers):
                    made[16 + 2 * tag:18 + 2 * tag] = number.to_bytes(2, 'little')
                if is_list:
                    made[4:8] = (end + 1).to_bytes(4, 'little')
                    made += word.to_bytes(8, 'little')
                    word = 1 | end - at - 1 << 2 | 6 << 32 | 1 << 35
                made[8 + 8 * at:16 + 8 * at] = word.to_bytes(8, 'little')
                yield bytes(made)

    def bugs(self, frames, counts):
        """Plants a bug in each word of the table that says something."""
        right, table = [answer[:6] for answer in self.answers(frames)], self.table()
        planted = found = 0
        for at, other in table_bugs(table):
            planted += 1
            wrong = self.answers(frames, at, other)
            hit = wrong is None or [answer[:6] for answer in wrong] != right
            found += hit
            if not hit:
                print(f'  {self.file}: word {at} of the table may be {other} in place of {table[at]}')
        counts.say(planted > 10 and found == planted, f'{self.file}: {found} of {planted} planted bugs in the table are found')


def table_bugs(table):
    """Bugs in a table, as the position of a word and what is there: each kind of a pointer is another one, or anything; each row lacks its
    last pointer; and each test looks at another place, or at another number."""
    at, tests, bugs = 1, set(), []
    while at < len(table):
        if at in tests:
            # a member that may be anything needs no test
            bugs += [(at, table[at] + 1), (at + 1, table[at + 1] + 1)] * (table[at + 2] > 0)
            kinds = range(at + 2, at + 4)
        else:
            bugs += [(at, table[at] - 1)] * (table[at] > 0)
            kinds = range(at + 1, at + 1 + table[at])
        bugs += [(it, other) for it in kinds if table[it] & 15 not in (0, 7) for other in (0, 4 if table[it] & 15 == 1 else 1)]
        tests |= {table[it] >> 4 for it in kinds if table[it] & 15 == 7}
        at = kinds.stop
    return bugs


def tags_of(table):
    """The offsets of unions' numbers that the table tests, each with the largest number that is tested."""
    bugs, found = table_bugs(table), {}
    for at, other in bugs:
        if (at, table[at] + 1) == (at, other) and (at + 1, table[at + 1] + 1) in bugs:
            found[table[at]] = max(found.get(table[at], 0), table[at + 1])
    return found


def checks(options, room, counts):
    for stem, root in ('fields', 'Root'), ('kinds', 'Kinds'):
        made = Checked(options, room, f'checks_{stem}', (HERE / f'{stem}.capnp').read_text(encoding='utf-8'), [root])
        if made.build(counts):
            rng = random_numbers.Random(f'{stem} {options.messages}')
            frames = messages.frames(made.schema, [root], min(options.messages, 100), 5)
            changed = [messages.altered(rng, it) for it in frames for _ in range(40)]
            made.compare(frames, changed, counts)
            made.bugs(frames + changed[:1000] + list(made.crafted()), counts)


# An address book of one person, and the words of its message that are pointers, with their fields.
NAMED_BOOK = '(people = [(id = 1, name = "A", email = "a@b", phones = [(number = "5", type = home)], employment = (employer = "E"))])'
NAMED = ((0, 'AddressBook'), (1, 'AddressBook.people'), (4, 'Person.name'), (5, 'Person.email'), (6, 'Person.phones'),
         (7, 'Person.employment.employer or employment.school'), (12, 'Person.PhoneNumber.number'))


def names(options, room, counts):
    schema = HERE / 'addressbook.capnp'
    made = Checked(options, room, 'names', schema.read_text(encoding='utf-8'), ['AddressBook'])
    if not made.build(counts):
        return
    frame = subprocess.run(['capnp', 'encode', schema, 'AddressBook'], input=NAMED_BOOK.encode(), stdout=subprocess.PIPE, check=True).stdout
    # a capability in place of each pointer
    wrong = [frame[:8 + 8 * at] + (3).to_bytes(8, 'little') + frame[16 + 8 * at:] for at, _ in NAMED]
    found = made.answers(wrong)
    said = [' '.join(it[8:]) for it in found or []]
    counts.say(said == [name for _, name in NAMED], f'names: {len(said)} fields are named' if said == [name for _, name in NAMED] else f'names: {said}')


class Silent(run.Counts):
    """Counts, and says nothing."""

    def say(self, holds, what):
        self.passed, self.failed = self.passed + bool(holds), self.failed + (not holds)


def bugs(options, room, counts):
    text = (HERE / 'fields.capnp').read_text(encoding='utf-8')
    made = Generated(options, room, 'bugs', text, ['Root'])
    made.is_quiet, path = True, made.folder / made.header
    whole = path.read_text(encoding='utf-8')
    frames = messages.frames(made.schema, ['Root'], min(options.messages, 100), 8)
    found = 0
    for what, call, old, new in BUGS:
        start = re.search(rf'(?<![A-Za-z_]){re.escape(call)}', whole)
        at = whole.find(old, start.end()) if start else -1
        if at < 0 or at - start.end() > 2000:
            counts.say(False, f'bugs: {call} has no {old}')
            continue
        path.write_text(whole[:at] + new + whole[at + len(old):], encoding='utf-8')
        silent = Silent()
        if made.build(silent):
            made.read(frames, '', silent)
            made.copy(frames, silent)
        found += silent.failed > 0
        if not silent.failed:
            counts.say(False, f'bugs: {what} of {call} is not found')
    counts.say(found == len(BUGS), f'bugs: {found} of {len(BUGS)} planted bugs are found')


def odd(options, room, counts):
    folder = room / 'odd'
    folder.mkdir()
    said = ''
    for path in sorted((HERE / 'odd').glob('*.capnp')):
        said += generate(options.generator, str(path), folder)[1]
    status, unknown_said = unknown.generate(options.generator, folder)
    counts.say(status == 0, 'odd: what a later schema compiler asks for')
    said += unknown_said
    strictly(folder, sorted(it.name for it in folder.glob('*.h')), room, counts, 'odd')
    wanted = (HERE / 'odd/skipped_c.txt').read_text(encoding='utf-8')
    counts.say(said == wanted, 'odd: standard error names what is not written' if said == wanted else f'odd: standard error is {said}')


def files(options, room, counts):
    folder, said = room / 'files', run.generate_files(options.generator, room / 'files')
    wanted = (HERE / 'files/skipped_c.txt').read_text(encoding='utf-8')
    counts.say(said == wanted, 'files: standard error names what is not written' if said == wanted else f'files: standard error is {said}')
    strictly(folder, sorted(it.name for it in folder.glob('*.h')), room, counts, 'files')


# What annotated/named.c prints of these.
ORDERS = (
    ('(id = 7, class = "c", colour = green, buyer = (name = "B"), job = (none = void))', '7 c 1 B 12 nothing 0 1 2'),
    ('(id = 8, job = (payment = (amount = 5)))', '8  0  12 5 0 1 2'),
    ('(job = (parts = [(name = "n", size = 1, weight = 2)]))', '0  0  12 n 1 2 0 1 2'),
)


def annotated(options, room, counts):
    folder = room / 'annotated'
    folder.mkdir()
    said = ''.join(generate(options.generator, str(path), folder)[1] for path in sorted((HERE / 'annotated').glob('*.capnp')))
    wanted = (HERE / 'annotated/skipped.txt').read_text(encoding='utf-8')
    counts.say(said == wanted, 'annotated: standard error names what has no effect' if said == wanted else f'annotated: standard error is {said}')
    strictly(folder, sorted(it.name for it in folder.glob('*.h')), room, counts, 'annotated')
    words = ['gcc', '-std=c99', '-g', '-fsanitize=address,undefined', *STRICT, f'-I{BINDINGS}', f'-I{folder}']
    built, errors = compiled([*words, '-o', folder / 'named', HERE / 'annotated/named.c', library(options, room)])
    counts.say(built, 'annotated: named.c is compiled without a warning' if built else errors)
    for order, line in ORDERS if built else ():
        frame = subprocess.run(['capnp', 'encode', f'-I{BINDINGS}', HERE / 'annotated/named.capnp', 'Order'], input=order.encode(), stdout=subprocess.PIPE, check=True).stdout
        printed = subprocess.run([folder / 'named'], input=frame, stdout=subprocess.PIPE).stdout.decode()
        counts.say(printed == line + '\n', f'annotated: {line}' if printed == line + '\n' else f'annotated: {printed}')


def main():
    parser = argparse.ArgumentParser(description=__doc__, formatter_class=argparse.RawDescriptionHelpFormatter)
    parser.add_argument('--generator', default=str(run.TOP / 'capnpc-layout-c'))
    parser.add_argument('--library', default=str(run.TOP / 'generated/capnp_layout.c'))
    parser.add_argument('--schemas', type=int, default=3)
    parser.add_argument('--structs', type=int, default=20)
    parser.add_argument('--messages', type=int, default=300)
    parser.add_argument('--write', action='store_true')
    parser.add_argument('parts', nargs='*', choices=[[], *PARTS], metavar='PART')
    options = parser.parse_args()
    counts = run.Counts()
    with tempfile.TemporaryDirectory(prefix='typed-c-') as room:
        for name in options.parts or PARTS:
            globals()[name](options, pathlib.Path(room), counts)
    print(f'{counts.passed} passed, {counts.failed} failed')
    return 1 if counts.failed or not counts.passed else 0


if __name__ == '__main__':
    sys.exit(main())
