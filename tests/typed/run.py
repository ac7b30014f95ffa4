#!/usr/bin/env python3
"""Tests `capnpc-rattle-checked`, and what it generates: what `capnpc-rattle` does, and readers of checked messages.

    run.py [--schemas N] [--structs S] [--messages M] [--jobs J] [--unproved] [PART..]

The parts, by default all of them:

- `ours`: for `schema.capnp` and `addressbook.capnp` the generator writes the crates `schema_reading`, `addressbook_reading`,
  `addressbook_building` and `addressbook_checking`, byte for byte; and `capnpc-rattle` writes the first three of them.
- `fields`: the readers, the builders and the readers of checked messages of `fields.capnp` are proved at the first check, without
  a proof, and `rt fmt` leaves them as they are. A program over the readers prints M random messages (by default 200), made by
  `capnp encode`, as `capnp decode` prints them, and so does one over the readers of checked messages. Another copies them, by
  readers and builders: `capnp decode` prints the copies as it prints the messages, and C++ makes the same canonical words of both.
- `bugs`: planted bugs in these three crates of `fields.capnp`, one of each kind for each kind of field, are refused by a clause of
  that field's call, or because a call requires something of the table.
- `random`: like `fields`, for N random schemas (by default 2) of S structs (by default 8). Each struct in turn is the root of a
  message.
- `page`: the commands of docs/TYPED.md, typed in a copy of the repository, write and prove crates for the schema of that page, and
  its program prints messages.
- `versions`: the readers of an old version of a random schema, without the last fields of its structs, and those of the new one
  print messages of each other.
- `odd`: what is generated for schemas with odd names and declarations, and for a request of a later schema compiler, is proved, and
  standard error names what isn't written. Several schemas at once are refused.

With `--unproved` it only runs the programs, and with `--messages 0` it only proves.

For each crate it prints how many functions were proved, and in how many processor seconds; and what a call costs, by its name and
the kind of its field: the processor seconds between the end of the proof before it and the end of its own. So this is without
loading the libraries. It is measured with one job (`--jobs`, by default 1).

The gate must have built the libraries of the crates below. If the generator isn't built from its current sources, it is proved and
built first. The last line is `N passed, M failed`."""
import argparse
import collections
import filecmp
import os
import pathlib
import random
import re
import resource
import shutil
import subprocess
import sys
import tempfile

import copier
import messages
import printer
import unknown
from schema import NO_DISCRIMINANT, Schema, described, kind, values

TOP = pathlib.Path(__file__).resolve().parents[2]
sys.path.insert(0, str(TOP / 'tools'))
from libraries import Crates

# What the crates of a schema depend on, and the programs over them.
READERS = 'capnp_format capnp_words capnp_arena_traits capnp_pointers capnp_readers typed_reading'
PROGRAM = 'capnp_format capnp_words capnp_arena_traits capnp_arena capnp_framing capnp_pointers capnp_readers typed_reading'
CHECKING = 'typed_conforming typed_checking'
BUILT_ON = 'capnp_allocation capnp_in_place capnp_copies capnp_builders typed_building'
PARTS = 'ours', 'fields', 'bugs', 'random', 'versions', 'odd', 'page'
# Faults that `capnp decode` finds and upstream doesn't, in landing pads of two words; that the programs don't look at, since they don't
# read what any pointer leads to. And `capnp decode` prints no capabilities.
UNSEEN = (
    'Second word of double-far pad must be far pointer', 'double-far pointer to unknown segment', 'unknown pointer type',
    'or use the Cap\'n Proto RPC system',
)
# A line of `rattle check --progress`.
CHECKED = re.compile(r'checked (\S+), \d+ of \d+$')
# What some kinds of fields are called where costs are printed.
GROUPED = {kind: 'signed number' for kind in ('int8', 'int16', 'int32', 'int64')}
GROUPED |= {kind: 'number' for kind in ('uint8', 'uint16', 'uint32', 'uint64', 'float32', 'float64')}
# Two arms of a match, which name numbers.
READER_ARMS = r'(\d+) => (\w+::\w+)(,\s+)(\d+) => (\w+::\w+)'
# The planted bugs: what is wrong, the kind of field, what the names of its calls begin with, a part of the call, and what takes the
# place of that.
READER_BUGS = (
    ('offset', 'uint32', 'get', r'value::get_number\(&self\.reader, (\d+)\)', lambda n: f'value::get_number(&self.reader, {int(n) + 1})'),
    ('width', 'uint64', 'get', r'value::get_number\(&self\.reader, (\d+)\)', lambda n: f'u64::from(value::get_number::<A, u32>(&self.reader, {2 * int(n)}))'),
    ('sign', 'int8', 'get', r'value::get_number\(&self\.reader, (\d+)\)', lambda n: f'value::get_number::<A, u8>(&self.reader, {n}).min(127).cast_signed()'),
    ('default', 'uint8', 'get', r'value::get_number_or::<A, u8>\(&self\.reader, (\d+), \d+\)', lambda n: f'value::get_number(&self.reader, {n})'),
    ('mask', 'int16', 'get', r'value::get_number_or::<A, i16>\(&self\.reader, (\d+), -300\)', lambda n: f'value::get_number_or::<A, i16>(&self.reader, {n}, 300)'),
    ('sense', 'bool', 'get', r'value::get_bool\(&self\.reader, (\d+)\)', lambda n: f'!value::get_bool(&self.reader, {n})'),
    ('default', 'text', 'get', r'value::get_text_or\(&self\.reader, (\d+), default, lim\)', lambda n: f'value::get_text_or(&self.reader, {n}, b"", lim)'),
    ('type', 'data', 'get', r'value::get_data\(&self\.reader, (\d+), lim\)', lambda n: f'value::get_text(&self.reader, {n}, lim)'),
    ('index', 'struct', 'get', r'value::get_struct\(&self\.reader, (\d+), lim\)', lambda n: f'value::get_struct(&self.reader, {int(n) + 1}, lim)'),
    ('default', 'struct', 'get', r'value::get_struct_or\(&self\.reader, (\d+), default, lim\)', lambda n: f'value::get_struct(&self.reader, {n}, lim)'),
    ('default', 'list', 'get', r'list::get_numbers_or\(&self\.reader, (\d+), default, lim\)', lambda n: f'list::get_numbers(&self.reader, {n}, lim)'),
    ('index', 'list', 'get', r'list::get_texts\(&self\.reader, (\d+), lim\)', lambda n: f'list::get_texts(&self.reader, {int(n) + 1}, lim)'),
    ('offset', 'enum', 'get', r'of_number\(value::get_number\(&self\.reader, (\d+)\)\)', lambda n: f'of_number(value::get_number(&self.reader, {int(n) + 1}))'),
    ('refusal', 'text', 'get', r'value::get_text\(&self\.reader, \d+, lim\)', lambda n: 'Err(ErrorKind::ReadLimitExceeded)'),
    ('refusal', 'list', 'get', r'list::get_numbers\(&self\.reader, \d+, lim\)', lambda n: 'Err(ErrorKind::ReadLimitExceeded)'),
    ('refusal', 'interface', 'get', r'value::get_capability\(&self\.reader, \d+\)', lambda n: 'Err(ErrorKind::MessageContainsNullCapabilityPointer)'),
    ('name', 'data', 'get', r'value::get_data\(&self\.reader, (\d+), lim\)', lambda n: f'match value::get_data(&self.reader, {n}, lim) {{ Ok(bytes) => Ok(bytes), Err(_) => Err(ErrorKind::ReadLimitExceeded) }}'),
    ('offset', 'union', '', r'of_number\(value::get_number\(&self\.reader, (\d+)\)\)', lambda n: f'of_number(value::get_number(&self.reader, {int(n) + 1}))'),
    ('arm', 'variants', '', READER_ARMS, lambda first, one, between, second, other: f'{first} => {other}{between}{second} => {one}'),
    ('arm', 'members', '', READER_ARMS, lambda first, one, between, second, other: f'{first} => {other}{between}{second} => {one}'),
)
BUILDER_BUGS = (
    ('offset', 'uint32', 'set init', r'value::set_number\(arena, self\.place, (\d+), value\)', lambda n: f'value::set_number(arena, self.place, {int(n) - 1}, value)'),
    ('value', 'uint64', 'set init', r'value::set_number\(arena, self\.place, (\d+), value\)', lambda n: f'value::set_number(arena, self.place, {n}, value & 0xffff)'),
    ('default', 'uint8', 'set init', r'value::set_number_or\(arena, self\.place, (\d+), value, \d+\)', lambda n: f'value::set_number(arena, self.place, {n}, value)'),
    ('mask', 'uint16', 'set init', r'value::set_number_or\(arena, self\.place, (\d+), value, 8080\)', lambda n: f'value::set_number_or(arena, self.place, {n}, value, 8081)'),
    ('mask', 'int16', 'set init', r'value::set_number_or\(arena, self\.place, (\d+), value, -300\)', lambda n: f'value::set_number_or(arena, self.place, {n}, value, 300)'),
    ('sign', 'int8', 'set init', r'value::set_number\(arena, self\.place, (\d+), value\)', lambda n: f'value::set_number(arena, self.place, {n}, value.saturating_abs())'),
    ('sense', 'bool', 'set init', r'value::set_bool\(arena, self\.place, (\d+), value\)', lambda n: f'value::set_bool(arena, self.place, {n}, !value)'),
    ('bytes', 'text', 'set init', r'value::set_text\(arena, self\.place, (\d+), text\)', lambda n: f'value::set_text(arena, self.place, {n}, b"")'),
    ('type', 'data', 'set init', r'value::set_data\(arena, self\.place, (\d+), contents\)', lambda n: f'value::set_data(arena, self.place, {int(n) - 1}, contents)'),
    ('index', 'struct', 'set init', r'places::init_struct\(arena, self\.place, (\d+), ', lambda n: f'places::init_struct(arena, self.place, {int(n) - 1}, '),
    ('element', 'list', 'set init', r'ElementSize::TwoBytes', lambda n: 'ElementSize::FourBytes'),
    ('count', 'list', 'set init', r', count\)', lambda n: ', 0 * count)'),
    ('number', 'enum', 'set init', r'::number\(value\)', lambda n: '::number(value).min(1)'),
    ('refusal', 'text', 'set init', r'value::set_text\(arena, self\.place, \d+, text\)', lambda n: 'Err(ErrorKind::AllocationFailed)'),
    ('tag', 'void', 'set init', r'number: (\d+),', lambda n: f'number: {int(n) + 1},'),
    ('tag', 'float64', 'set init', r'value::set_number_member\(arena, self\.place, tag, (\d+), value\)', lambda n: f'value::set_number(arena, self.place, {n}, value)'),
    ('capability', 'interface', 'set init', r'value::set_capability\(arena, self\.place, (\d+), capability\)', lambda n: f'value::set_capability(arena, self.place, {n}, 0)'),
    ('part', 'group', 'set init', r'Slot::(?:Bit|Byte|FourBytes)\((\d+)\)', lambda n: f'Slot::Bit({n})'),
    ('place', 'group', 'set init', r'Builder \{ place: self\.place \}', lambda n: 'Builder { place: StructPlace { segment: 0, ..self.place } }'),
    ('copy', 'list', 'set init', r'copying::set_list_from\(arena, self\.place, (\d+)', lambda n: f'copying::set_list_from(arena, self.place, {int(n) - 1}'),
    ('copy', 'struct', 'set init', r'copying::set_struct_from\(arena, self\.place, (\d+)', lambda n: f'copying::set_struct_from(arena, self.place, {int(n) - 1}'),
    ('copy', 'anyPointer', 'set init', r'copying::set_pointer_from\(arena, self\.place, (\d+)', lambda n: f'copying::set_pointer_from(arena, self.place, {int(n) - 1}'),
    ('offset read', 'uint32', 'get has', r'reading::get_number\(arena, self\.place, (\d+)\)', lambda n: f'reading::get_number(arena, self.place, {int(n) - 1})'),
    ('default read', 'int16', 'get has', r'reading::get_number_or::<A, i16>\(arena, self\.place, (\d+), -300\)', lambda n: f'reading::get_number(arena, self.place, {n})'),
    ('sense read', 'bool', 'get has', r'reading::get_bool\(arena, self\.place, (\d+)\)', lambda n: f'!reading::get_bool(arena, self.place, {n})'),
    ('offset read', 'enum', 'get has', r'reading::get_number\(arena, self\.place, (\d+)\)', lambda n: f'reading::get_number(arena, self.place, {int(n) - 1})'),
    ('index read', 'text', 'get has', r'reading::has\(arena, self\.place, (\d+)\)', lambda n: f'reading::has(arena, self.place, {int(n) + 1})'),
    ('index opened', 'struct', 'get has', r'places::get_struct\(arena, self\.place, (\d+)', lambda n: f'places::get_struct(arena, self.place, {int(n) - 1}'),
    ('index opened', 'list', 'get has', r'places::get_struct_list\(arena, self\.place, (\d+)', lambda n: f'places::get_struct_list(arena, self.place, {int(n) - 1}'),
    ('size read', 'list', 'get has', r'(opening::get_list\(arena, self\.place, \d+, ElementSize::)TwoBytes', lambda n: f'{n}FourBytes'),
    ('offset read', 'union', '', r'reading::get_number\(arena, self\.place, (\d+)\)', lambda n: f'reading::get_number(arena, self.place, {int(n) - 1})'),
    ('arm', 'variants', '', r'(\w+::\w+) => (\d+)(,\s+)(\w+::\w+) => (\d+)', lambda one, first, between, other, second: f'{one} => {second}{between}{other} => {first}'),
)
CHECKING_BUGS = (
    ('offset', 'uint32', 'get', r'value::get_number\(&self\.checked\.reader, (\d+)\)', lambda n: f'value::get_number(&self.checked.reader, {int(n) + 1})'),
    ('index', 'text', 'get', r'self\.checked\.get_str\((\d+)\)', lambda n: f'self.checked.get_str({int(n) + 1})'),
    ('kind', 'data', 'get', r'self\.checked\.get_data\((\d+)\)', lambda n: f'self.checked.get_str({n}).as_bytes()'),
    ('default', 'text', 'get', r'self\.checked\.get_str_or\((\d+), "[^"]*"\)', lambda n: f'self.checked.get_str({n})'),
    ('index', 'struct', 'get', r'self\.checked\.get_struct\((\d+)\)', lambda n: f'self.checked.get_struct({int(n) + 1})'),
    ('null', 'struct', 'get', r'if !value::has\(&self\.checked\.reader, (\d+)\)', lambda n: f'if value::has(&self.checked.reader, {n})'),
    ('index', 'list', 'get', r'self\.checked\.get_numbers\((\d+)\)', lambda n: f'self.checked.get_numbers({int(n) + 1})'),
    ('number', 'data', 'get', r'get_member_data\(&\[Member\((\d+), (\d+)\)\]', lambda tag, number: f'get_member_data(&[Member({tag}, {int(number) + 1})]'),
    ('tag', 'list', 'get', r'get_member_structs\(&\[Member\((\d+), (\d+)\)\]', lambda tag, number: f'get_member_structs(&[Member({int(tag) + 1}, {number})]'),
    ('test', 'struct', 'get', r'match self\.checked\.get_member_struct\(&\[Member\(\d+, \d+\)\], (\d+)\)', lambda n: f'match Some(self.checked.get_struct({n}))'),
    ('outer test', 'text', 'get', r'get_member_str\(&\[Member\((\d+), (\d+)\), Member\(\d+, \d+\)\]', lambda tag, number: f'get_member_str(&[Member({tag}, {number})]'),
    ('offset', 'union', '', r'of_number\(value::get_number\(&self\.checked\.reader, (\d+)\)\)', lambda n: f'of_number(value::get_number(&self.checked.reader, {int(n) + 1}))'),
)


class Counts:
    """What passed and what failed."""

    def __init__(self):
        self.passed = self.failed = 0

    def say(self, holds, what):
        self.passed, self.failed = self.passed + bool(holds), self.failed + (not holds)
        print(f'{what}' if holds else f'FAILED {what}', flush=True)


def generate(path, folder, generator='capnpc-rattle-checked'):
    """Runs `capnp compile` with the generator, which writes crates into the folder, and returns what their names begin with."""
    source = pathlib.Path(path).parent
    subprocess.run(['capnp', 'compile', f'--src-prefix={source}', f'-o{TOP}/{generator}:{folder}', path], check=True)
    return pathlib.Path(path).stem


def generate_files(generator, folder):
    """Makes a folder with the code for the schemas of the folder `files`, by one command, and returns what the generator says."""
    here = TOP / 'tests/typed/files'
    folder.mkdir(parents=True)
    schemas = sorted(here.rglob('*.capnp'))
    ran = subprocess.run(['capnp', 'compile', f'-I{here}', f'--src-prefix={here}', f'-o{generator}:{folder}', *schemas], stderr=subprocess.PIPE, encoding='utf-8')
    if ran.returncode:
        sys.exit(f'files: {ran.stderr}')
    return ran.stderr


def tree(folder):
    """A repository with copies of this one's crates, and with their libraries: its folder of crates."""
    crates = pathlib.Path(folder) / 'crates'
    for name in Crates().stands_on:
        for part in ('src', 'specs'):
            if (TOP / 'crates' / name / part).is_dir():
                shutil.copytree(TOP / 'crates' / name / part, crates / name / part)
        (crates / name / 'out').symlink_to(TOP / 'crates' / name / 'out')
    for file in ('HANDLES', 'crates.txt'):
        shutil.copy(TOP / file, folder)
    return crates


def add(folder, line):
    """Adds a crate's line to the list of crates."""
    with open(pathlib.Path(folder) / 'crates.txt', 'a', encoding='utf-8') as listed:
        listed.write(line + '\n')


def processor_seconds(process):
    """The processor seconds that a running process has used."""
    fields = pathlib.Path(f'/proc/{process}/stat').read_text(encoding='utf-8').rpartition(')')[2].split()
    return (int(fields[11]) + int(fields[12])) / os.sysconf('SC_CLK_TCK')


def run_rattle(folder, name, command, *words):
    """Runs a command of the checker for a crate. Returns whether it succeeds, what it says, and for each function whose proof it
    ends with how many processor seconds it had used then."""
    crates = Crates(pathlib.Path(folder))
    given = list(crates.words(name))
    if '--crate-checked' in words:
        # what was checked already isn't checked over the built logic
        at = given.index('--logic-built')
        del given[at:at + 2]
    command = [f'{crates.kit}/bin/rattle', command, *given, *words]
    said, ended = [], []
    with subprocess.Popen(command, cwd=crates.top / 'crates' / name, stdin=subprocess.DEVNULL, stdout=subprocess.PIPE, stderr=subprocess.STDOUT, encoding='utf-8', errors='replace') as run:
        for line in run.stdout:
            if checked := CHECKED.match(line):
                ended.append((checked[1], processor_seconds(run.pid)))
            else:
                said.append(line)
    return run.returncode == 0, ''.join(said), ended


def prove(folder, name, jobs):
    """Proves a crate in one check, and keeps that in `out/whole`."""
    (pathlib.Path(folder) / 'crates' / name / 'out').mkdir()
    return run_rattle(folder, name, 'check', '--progress', '--jobs', str(jobs), '-o', 'out/whole')


def build(folder, name):
    """Builds the library of a crate that is proved."""
    library = Crates(pathlib.Path(folder)).rlib(name)
    library.parent.mkdir()
    return run_rattle(folder, name, 'build', '--crate-checked', 'out/whole', '-o', str(library))


def check(folder, name, jobs, functions):
    """Checks some functions."""
    return run_rattle(folder, name, 'check', '--jobs', str(jobs), *(word for function in functions for word in ('--only', function)))


def same_as_ours(counts, path):
    """What the generator writes for a schema whose crates are in the repository."""
    for generator, parts in (('capnpc-rattle', ('reading', 'building')), ('capnpc-rattle-checked', ('reading', 'building', 'checking'))):
        with tempfile.TemporaryDirectory() as folder:
            stem = generate(path, folder, generator)
            written = {it.name for it in pathlib.Path(folder).iterdir()}
            counts.say(written == {f'{stem}_{part}' for part in parts}, f'{generator}: {" ".join(sorted(written))}')
            for name in sorted(written):
                made, ours = pathlib.Path(folder) / name, TOP / 'crates' / name
                if ours.is_dir():
                    files, others = ({it.relative_to(crate) for part in ('src', 'specs') for it in (crate / part).iterdir()} for crate in (ours, made))
                    same = files == others and all(filecmp.cmp(ours / it, made / it, shallow=False) for it in files)
                    counts.say(same, f'{name}: {len(files)} files are the same as in crates/{name}')


def prover_seconds():
    """The processor seconds of the commands that have ended."""
    used = resource.getrusage(resource.RUSAGE_CHILDREN)
    return used.ru_utime + used.ru_stime


class Costs:
    """What the proofs of calls cost: lists of seconds, by the first word of the call's name, and by that with the kind of its
    field."""

    def __init__(self, schema, ended):
        self.of = {}
        kinds = {node['module']: kinds_of_calls(node) for node in schema.written}
        for (_, before), (function, seconds) in zip(ended, ended[1:]):
            _, module, *_, call = function.split('::')
            if what := kinds.get(module, {}).get(call):
                name = call.partition('_')[0]
                for of in (name, f'{name} {what}'):
                    self.of.setdefault(of, []).append(seconds - before)

    def __str__(self):
        return '; '.join(f'{call} {sum(of) / len(of):.2f} (of {len(of)}, at most {max(of):.2f})' for call, of in sorted(self.of.items()))


def kinds_of_calls(node):
    """The kind of the field of each call of a struct."""
    found = {'which': 'union'}
    for field in node.get('fields', ()):
        what = GROUPED.get(kind(field['slot']['type']), kind(field['slot']['type'])) if 'slot' in field else 'group'
        what += ' member' if field['discriminantValue'] != NO_DISCRIMINANT else ''
        found.update({f'{prefix}_{field["getter"]}': what for prefix in ('get', 'has')})
        found.update({f'{prefix}_{field["setter"]}': what for prefix in ('get', 'has', 'set', 'init')})
    return found


class Programs:
    """Programs over the generated code of a schema: the file `file`, whose declarations are `schema`. The roots of messages are
    structs of the schema in turn. `run` runs a program of a name for messages, and returns the lines that it prints."""
    # whether the program prints what it has read of a message, and then that it refuses it
    says_after = False

    def decoded(self, frames):
        """What `capnp decode` prints for each of these messages."""
        texts = [None] * len(frames)
        for i, root in enumerate(self.roots[:len(frames)]):
            run = subprocess.run(['capnp', 'decode', '--quiet', self.schema.path, root], input=b''.join(frames[i::len(self.roots)]), stdout=subprocess.PIPE, check=True)
            texts[i::len(self.roots)] = values(run.stdout.decode())
        return texts

    def canonical(self, frames):
        """The canonical words of each message, by C++."""
        def words(i):
            root = self.roots[i % len(self.roots)]
            return subprocess.run(['capnp', 'convert', '--quiet', 'binary:canonical', self.schema.path, root], input=frames[i], stdout=subprocess.PIPE, check=True).stdout

        return messages.every(words, range(len(frames)))

    def read(self, frames, whose, counts, program='printer'):
        """Compares what the readers' program prints with what `capnp decode` prints. `whose` says who wrote the messages."""
        ours = list(values('\n'.join(self.run(program, frames))))
        same, fields, difference = messages.compared(self.schema, self.roots, ours, self.decoded(frames), program == 'checked')
        counts.say(frames and not difference, f'{self.file}: {same} {"checked " if program == "checked" else ""}messages{whose} with {fields} fields' + (f', then {difference}' if difference else ''))

    def read_altered(self, frames, seed, counts):
        """Reads altered messages. What the program and `capnp decode` both read, they print the same. What that refuses, the program
        refuses too, except for the faults of `UNSEEN`."""
        rng = random.Random(seed)
        frames = [messages.altered(rng, it) for it in frames if it[:4] == bytes(4) and len(it) > 8]
        ours = []
        for line in self.run('altered', frames):
            # the program in C says afterwards that it has refused the message
            ours[-1 if line == 'refused' and self.says_after else len(ours):] = [line]
        theirs = messages.every(lambda i: self.decoded_one(self.roots[i % len(self.roots)], frames[i]), range(len(frames)))
        found, of = collections.Counter(), {}
        for i, (one, (status, other)) in enumerate(zip(ours, theirs)):
            what = 'refused' if one == 'refused' else 'read', 'refused' if status else 'read'
            found[what] += 1
            of.setdefault(what, []).append(i)
        both, wrong = of.get(('read', 'read'), []), of.get(('read', 'refused'), [])
        wrong = [i for i in wrong if not any(it in theirs[i][1] for it in UNSEEN)]
        differs = [i for i in both if messages.compared(self.schema, [self.roots[i % len(self.roots)]], [ours[i]], [next(values(theirs[i][1]), '()')])[2]]
        print(f'  {self.file}: altered messages, by this program and by capnp decode: ' + ', '.join(f'{" and ".join(what)} {count}' for what, count in sorted(found.items())), flush=True)
        counts.say(frames and len(ours) == len(frames) and not differs, f'{self.file}: {len(both)} altered messages are printed as by capnp decode' + (f', but {len(differs)} are not: {differs[:3]}' if differs else ''))
        counts.say(not wrong, f'{self.file}: what capnp decode refuses is refused' + (f', but not {[(i, theirs[i][1][-200:]) for i in wrong[:3]]}' if wrong else ''))

    def decoded_one(self, root, frame):
        """The status of `capnp decode` for a message, and what it prints."""
        ran = subprocess.run(['capnp', 'decode', '--quiet', self.schema.path, root], input=frame, stdout=subprocess.PIPE, stderr=subprocess.STDOUT)
        return ran.returncode, ran.stdout.decode('utf-8', 'surrogateescape')

    def copy(self, frames, counts):
        """Compares messages with their copies, by readers and builders."""
        copies = [bytes.fromhex(line) for line in self.run('copier', frames)]
        whole = frames and len(copies) == len(frames)
        counts.say(whole and self.decoded(copies) == self.decoded(frames), f'{self.file}: {len(copies)} copies are decoded as the messages')
        same = sum(one == other for one, other in zip(self.canonical(copies), self.canonical(frames)))
        counts.say(whole and same == len(frames), f'{self.file}: {same} copies have the canonical words of the messages')


class Generated(Programs):
    """The generated readers and builders of a schema, in a repository of their own, and programs over them. The roots of messages
    are structs of the schema in turn."""

    def __init__(self, folder, text, stem, roots=None):
        folder.mkdir(exist_ok=True)
        path = folder / f'{stem}.capnp'
        path.write_text(text, encoding='utf-8')
        self.folder, self.file, self.stem = folder, path.name, stem
        self.crates = tree(folder)
        self.schema = Schema(str(path))
        self.roots = roots or self.schema.structs()
        generate(str(path), str(self.crates))
        self.readers, self.builders, self.checking = f'{stem}_reading', f'{stem}_building', f'{stem}_checking'
        add(folder, f'{self.readers}: {READERS}')
        add(folder, f'{self.builders}: {READERS} {BUILT_ON} {self.readers}')
        add(folder, f'{self.checking}: {READERS} {CHECKING} {self.readers}')
        self.add_program(f'{stem}_printer', printer.program(self.schema, self.readers, self.roots))
        self.add_program(f'{stem}_checked', printer.checked_program(self.schema, self.readers, self.crates / self.checking, self.roots))
        self.add_program(f'{stem}_copier', copier.program(self.schema, self.readers, self.builders, self.roots))

    def add_program(self, name, text):
        (self.crates / name / 'src').mkdir(parents=True)
        (self.crates / name / 'src/main.rt').write_text(text, encoding='utf-8')
        add(self.folder, f'{name}: {PROGRAM} {CHECKING} {BUILT_ON} {self.readers} {self.builders} {self.checking} anyhow')

    def lay_out(self, counts):
        """Lets `rt fmt` lay out what is generated: it has to leave that as it is."""
        changed = []
        for name in (self.readers, self.builders, self.checking):
            run = subprocess.run(['rt', 'fmt'], cwd=self.crates / name, stdout=subprocess.PIPE, stderr=subprocess.STDOUT, encoding='utf-8')
            changed += [f'{name}/{file}' for file in re.findall(r'formatted (\S+)', run.stdout)]
        counts.say(not changed, f'{self.file}: the three crates are in the layout of rt fmt' + (f', but not {" ".join(changed)}' if changed else ''))

    def prove(self, name, jobs, counts):
        """Proves a crate, which has no proof, and prints what a call costs. Builds the library of the readers."""
        before = prover_seconds()
        proved, said, ended = prove(self.folder, name, jobs)
        functions, seconds = len(re.findall(r'^(?:fn|struct) .*: proved', said, re.MULTILINE)), prover_seconds() - before
        cost = f'{functions} functions proved in {seconds:.0f} processor seconds, {seconds / max(functions, 1):.2f} each'
        counts.say(proved and not (self.crates / name / 'proofs').exists(), f'{name}: {cost if proved else said}')
        if jobs == 1 and ended:
            print(f'  {ended[0][1]:.1f} seconds until the first is proved; {Costs(self.schema, ended)}', flush=True)
        if proved and name == self.readers:
            built, said, _ = build(self.folder, name)
            if not built:
                counts.say(False, f'{name}: {said}')

    def run(self, program, frames):
        """The lines that a program prints for these messages. It gets some 150 at a time: `rt try` takes seconds for each run, which
        may print 1 MiB."""
        some = len(self.roots) * max(150 // len(self.roots), 1)
        with tempfile.TemporaryDirectory() as cases:
            for i in range(0, len(frames), some):
                (pathlib.Path(cases) / f'{i:08}').write_bytes(b''.join(frames[i:i + some]))
            run = subprocess.run(['rt', 'try', '--seconds', '600', '--cases', cases], cwd=self.crates / f'{self.stem}_{program}', stdin=subprocess.DEVNULL, stdout=subprocess.PIPE, stderr=subprocess.PIPE)
        lines = [line for line in run.stdout.decode(errors='replace').splitlines() if not line.startswith('== ')]
        if len(lines) != len(frames):
            print(run.stderr.decode(errors='replace')[-3000:])
        return lines


def calls(made, crate, of, prefixes, what):
    """The calls of the fields of a kind: the path of each, its file and the text of that, and where the call is in that. The kind
    may also be `union`, for the call that says which member is set; `variants`, for the numbers of an enum; and `members`, for
    those of a union's members."""
    for node in made.schema.written:
        module, fields = node['module'], [it for it in node.get('fields', ()) if what == (kind(it['slot']['type']) if 'slot' in it else 'group')]
        names = [f'{of}::{prefix}_{field["setter" if of == "Builder" else "getter"]}' for field in fields for prefix in prefixes]
        if what == 'union' and 'which' in node:
            names = [f'{of}::which']
        elif what == 'variants' and 'enum' in node:
            names = ['number' if of == 'Builder' else 'of_number']
        elif what == 'members' and 'which' in node:
            module, names = node['which'], ['of_number']
        path = made.crates / crate / f'src/{module}.rt'
        text = path.read_text(encoding='utf-8') if names else ''
        for name in names:
            if call := re.search(rf'pub fn {name.split("::")[-1]}[(<]', text):
                yield f'{module}::{name}', path, call.start(), text.index('\n    }\n' if '::' in name else '\n}\n', call.start())


def goals(crate, function, said, kinds):
    """The goals for which a check found no proof, of those that begin or end with one of `kinds`."""
    found = re.search(rf'^fn {re.escape(f"{crate}::{function}")}: no proof: .* did not prove (.*)', said, re.MULTILINE)
    return [goal for goal in re.findall('`([^`]*)`', found[1]) if any(goal.startswith(it) or goal.endswith(it) for it in kinds)] if found else []


def plant(made, crate, of, bugs, jobs, counts):
    """Plants each bug into the first call that it fits and that has none yet, and checks these calls: each has to be refused by one
    of its clauses; in a getter of a checked message, also by what the call that it makes requires of the table."""
    kinds = ('returns', '-requires') if of == 'Checked' else ('returns',)
    planted, texts = {}, {}
    for wrong, what, prefixes, pattern, change in bugs:
        for function, path, start, end in calls(made, crate, of, prefixes.split(), what):
            text = texts.setdefault(path, path.read_text(encoding='utf-8'))
            if function not in planted and (call := re.compile(pattern).search(text, start, end)):
                planted[function] = wrong, what, path, call.span(), change(*(call.groups() or [None]))
                break
        else:
            counts.say(False, f'{crate}: no field of kind {what} for a bug in its {wrong}')
    for path, text in texts.items():
        # from the last one on, so that the others stay where they are
        for (start, end), new in sorted(((span, new) for _, _, to, span, new in planted.values() if to == path), reverse=True):
            text = text[:start] + new + text[end:]
        path.write_text(text, encoding='utf-8')
    _, said, _ = check(made.folder, crate, jobs, planted)
    for function, (wrong, what, *_) in planted.items():
        left = goals(crate, function, said, kinds)
        counts.say(left, f'{crate}: a bug in the {wrong} of a field of kind {what}, {function}: ' + (f'refused, {", ".join(left)}' if left else 'not refused by a clause'))
    for path, text in texts.items():
        path.write_text(text, encoding='utf-8')
    if re.search(r'\berror\b', said):
        print(said)


def trip(made, count, seed, jobs, counts):
    """Prints and copies random messages of a schema, and proves what is generated for it. With 0 jobs it proves nothing."""
    made.lay_out(counts)
    if count:
        frames = messages.frames(made.schema, made.roots, count, seed)
        made.read(frames, '', counts)
        made.read(frames, '', counts, 'checked')
        made.copy(frames, counts)
    if jobs:
        made.prove(made.readers, jobs, counts)
        made.prove(made.builders, jobs, counts)
        made.prove(made.checking, jobs, counts)


def versions(folder, structs, count, jobs, counts):
    """Proves the readers of an old and of a new version of a schema, and prints messages of each by the readers of the other."""
    texts = messages.RandomSchema(1000, structs, 10)
    new, old = (Generated(folder / stem, text, stem, texts.structs) for stem, text in (('new', texts.text), ('old', texts.old)))
    for made, other in ((new, old), (old, new)):
        if count:
            frames = messages.frames(other.schema, other.roots, count, 0)
            made.read(frames, f' of {other.file}', counts)
            made.read(frames, f' of {other.file}', counts, 'checked')
        if jobs:
            made.prove(made.readers, jobs, counts)
            made.prove(made.checking, jobs, counts)


def odd(folder, jobs, counts):
    """The schemas of the folder `odd`, whose crates are in one repository."""
    folder.mkdir()
    crates, said, here = tree(folder), '', TOP / 'tests/typed/odd'
    command = ['capnp', 'compile', f'--src-prefix={here}', f'-o{TOP}/capnpc-rattle-checked:{crates}']
    before = {*crates.iterdir()}
    several = subprocess.run([*command, here / 'a.capnp', here / 'b.capnp'], stderr=subprocess.PIPE)
    counts.say(several.returncode and {*crates.iterdir()} == before, 'odd: several schemas are refused, and nothing is written')
    for path in [*sorted(here.glob('*.capnp')), None]:
        if path:
            ran = subprocess.run([*command, path], stderr=subprocess.PIPE, encoding='utf-8')
            status, text = ran.returncode, ran.stderr
        else:
            status, text = unknown.generate(f'{TOP}/capnpc-rattle-checked', crates)
        said += text
        made = sorted(it.name for it in {*crates.iterdir()} - before)
        before = {*crates.iterdir()}
        counts.say(status == 0 and len(made) == 3, f'odd: {path.name if path else "a later schema compiler"}: {" ".join(made)}')
        builders, checking, readers = made
        add(folder, f'{readers}: {READERS}')
        add(folder, f'{builders}: {READERS} {BUILT_ON} {readers}')
        add(folder, f'{checking}: {READERS} {CHECKING} {readers}')
        for name in (readers, builders, checking) if jobs else ():
            start = prover_seconds()
            proved, why, _ = prove(folder, name, jobs)
            functions = len(re.findall(r'^(?:fn|struct) .*: proved', why, re.MULTILINE))
            counts.say(proved, f'{name}: {functions} functions proved in {prover_seconds() - start:.0f} processor seconds' if proved else f'{name}: {why[-3000:]}')
            if proved and name == readers:
                build(folder, name)
    wanted = (here / 'skipped_rattle.txt').read_text(encoding='utf-8')
    counts.say(said == wanted, 'odd: standard error names what is not written' if said == wanted else f'odd: standard error is {said}')


def blocks(page, heading):
    """The blocks of a page below a heading, by their kind."""
    text = (TOP / page).read_text(encoding='utf-8').partition(f'\n## {heading}\n')[2].partition('\n## ')[0]
    return dict(re.findall(r'```(\w+)\n(.*?)```', text, re.DOTALL))


def type_page(folder, counts):
    """Types the commands of docs/TYPED.md in a copy of this repository, and then puts the program of the page there."""
    def kept(at, names):
        return [it for it in names if pathlib.Path(at).name == 'out' and it not in ('rlib', 'capnpc_rattle')]

    top, typed = pathlib.Path(folder) / 'page', blocks('docs/TYPED.md', 'In five commands')
    shutil.copytree(TOP / 'crates', top / 'crates', ignore=kept)
    shutil.copytree(TOP / 'tools', top / 'tools')
    shutil.copytree(TOP / 'dev', top / 'dev')
    for file in ('HANDLES', 'crates.txt', 'capnpc-rattle', 'capnpc-rattle-checked'):
        shutil.copy2(TOP / file, top)
    (top / 'shop.capnp').write_text(typed['capnp'], encoding='utf-8')
    run = subprocess.run(['sh', '-e'], cwd=top, input=typed['sh'], encoding='utf-8')
    counts.say(run.returncode == 0 and (top / 'crates/my_program/out/my_program').is_file(), 'the commands of docs/TYPED.md prove three crates')
    for file in ('src/clock.rt', 'stdin', 'stdout'):
        (top / 'crates/my_program' / file).unlink()
    (top / 'crates/my_program/src/main.rt').write_text(typed['rust'], encoding='utf-8')
    run = subprocess.run(['dev/prove', 'my_program'], cwd=top)
    counts.say(run.returncode == 0, 'the program of docs/TYPED.md is proved')
    orders = subprocess.run(['capnp', 'encode', 'shop.capnp', 'Order'], cwd=top, input=b'(id = 1, customer = "Ada")(id = 2, customer = "Bob")', stdout=subprocess.PIPE, check=True).stdout
    run = subprocess.run([top / 'crates/my_program/out/my_program'], input=orders, stdout=subprocess.PIPE)
    counts.say(run.returncode == 0 and run.stdout == b'1: Ada\n2: Bob\n', 'and prints two messages')


def fields(folder, parts, count, jobs, counts):
    """The parts about `fields.capnp`."""
    made = Generated(folder, (TOP / 'tests/typed/fields.capnp').read_text(encoding='utf-8'), 'fields', ['Root'])
    if 'fields' in parts:
        trip(made, count, 0, jobs, counts)
    if 'bugs' in parts and jobs:
        if not Crates(folder).rlib(made.readers).is_dir():
            made.prove(made.readers, jobs, counts)
        plant(made, made.readers, 'Reader', READER_BUGS, jobs, counts)
        plant(made, made.builders, 'Builder', BUILDER_BUGS, jobs, counts)
        plant(made, made.checking, 'Checked', CHECKING_BUGS, jobs, counts)


def main():
    arguments = argparse.ArgumentParser(description=__doc__, formatter_class=argparse.RawDescriptionHelpFormatter)
    for name, number in (('schemas', 2), ('structs', 8), ('messages', 200), ('jobs', 1)):
        arguments.add_argument(f'--{name}', type=int, default=number)
    arguments.add_argument('--unproved', action='store_true')
    arguments.add_argument('parts', nargs='*', metavar='PART')
    given = arguments.parse_args()
    if unknown := set(given.parts) - set(PARTS):
        arguments.error(f'there is no part {unknown.pop()}')
    parts, jobs, counts = given.parts or PARTS, 0 if given.unproved else given.jobs, Counts()
    subprocess.run([str(TOP / 'dev/prove'), 'capnpc_rattle'], check=True)
    if 'ours' in parts:
        same_as_ours(counts, described())
        same_as_ours(counts, str(TOP / 'tests/typed/addressbook.capnp'))
    with tempfile.TemporaryDirectory() as folder:
        if 'fields' in parts or 'bugs' in parts:
            fields(pathlib.Path(folder) / 'fields', parts, given.messages, jobs, counts)
        for seed in range(given.schemas if 'random' in parts else 0):
            text = messages.RandomSchema(seed, given.structs, 10).text
            trip(Generated(pathlib.Path(folder) / f'random{seed}', text, f'random{seed}'), given.messages, seed, jobs, counts)
        if 'versions' in parts:
            versions(pathlib.Path(folder), given.structs, given.messages, jobs, counts)
        if 'odd' in parts:
            odd(pathlib.Path(folder) / 'odd', jobs, counts)
        if 'page' in parts and jobs:
            type_page(folder, counts)
    print(f'{counts.passed} passed, {counts.failed} failed')
    return 1 if counts.failed or not counts.passed else 0


if __name__ == '__main__':
    sys.exit(main())
