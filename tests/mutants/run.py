#!/usr/bin/env python3
"""Tries mutants: small bugs planted in the sources. The prover must refuse each of them.

    run.py [--every] [CRATE..]

Tries the mutants that `gate.txt` in this folder names; with --every, all mutants in the subfolders. With CRATE.., only
those of these crates. The libraries that each crate depends on must be built first: `dev/test` or `rt check` does that.

A mutant is a file CRATE/WHAT_IS_WRONG.mutant. It has a line `file: src/..`, and then pairs of lines `old: TEXT` and
`new: TEXT`; each old text must occur exactly once in that file. The mutant is refused if the function that contains it
can no longer be proved, because of a goal of its own. A line `in: PATH` (such as `in: reading::read_into`) names another
function: for a change outside of functions, or of a fact that only the other function promises. `in: all` asks for a
refusal of any function of the crate.

The mutants of a crate that are in different functions are applied together, and one check proves these functions only.
What they call is taken by its contract: its proof, which `rt ci` checks, is replaced by a hole. That is sound because a
function is proved from the contracts of what it calls, not from their bodies. So the number of checks is the largest
number of mutants in one function or cycle of functions. A mutant of a definition is tried on its own.

Prints for each mutant the function that is refused and the first goal that stays open, and in the last line
`N passed, M failed`. A mutant fails if it isn't refused, if it can't be applied, compiled or read, or if its check is
killed."""
import dataclasses
import os
import pathlib
import re
import shutil
import signal
import subprocess
import sys
import tempfile
from concurrent.futures import ThreadPoolExecutor

HERE = pathlib.Path(__file__).resolve().parent
TOP = HERE.parents[1]
sys.path.insert(0, str(TOP / 'tools'))
from libraries import PARTS, Crates
FUNCTION = re.compile(r'( *)(?:pub(?:\([a-z]+\))? )?(?:const )?(?:unsafe )?(?:extern "C" )?fn (\w+)')
BLOCK = re.compile(r'( *)(?:unsafe )?(?:impl(?:<.*?>)?|(?:pub(?:\([a-z]+\))? )?trait) (.*)')
CYCLE = re.compile(r' *#\[cycle\((\w+)\)\]')
# The first line of an impl of a plain type, with the trait that it is of.
IMPL = re.compile(r' *impl(?:<[^<>]*(?:<[^<>]*>[^<>]*)*>)? (?:(?:\w+::)*(\w+) for )?(?:\w+::)*\w+(?:<[^<>]*>)?(?: where| \{|$)')
TYPE = re.compile(r' *(?:pub(?:\([a-z]+\))? )?(?:struct|enum) (\w+)')
# A proof with a hole: with `--allow-holes`, a check goes by the contract of the function, or those of the cycle, that it is for.
HOLE = '''use Rattle.{crate}.proofs.{statement}.{{statement}}

pub {name}_spec : {{M : Type 1}} → statement M
{name}_spec = ?
'''
# A line that says that such a proof isn't read as that.
NO_HOLE = re.compile(r'(?:\./)?proofs/\S+/Proof\.antt:\d+:\d+: error')
# Words of antt, which can't be part of a path as they are.
RESERVED = set('abbrev axiom coe com data elim fcoe hcom in infix infixl infixr let module mutual open package record ruleset tcoe unfold unfoldable unfolding use using'.split())
# A line of the prover about a goal or an answer: its file, its line number and the message.
SAID = re.compile(r'(?:note: )?(?:\./)?((?:src|specs|proofs)/\S+?):(\d+):\d+: (.*)')
# Messages that a text can't be read, which has nothing to do with contracts.
UNREAD = re.compile(r'is not in scope|has no field|is no name|operand is missing|expected the end|cannot continue')
# Messages about a proof that uses a name which the mutant removed, or that cites such a proof.
NAMES = re.compile(r'has no field|is not in scope|has no `|was not admitted|declarations? that depends? on')


def say(text):
    print(text, flush=True)


class BadMutant(Exception):
    """A mutant can't be tried; the text says why."""


@dataclasses.dataclass(frozen=True)
class Function:
    """A function: its path (for a method only from the type on, wherever that is declared), its file, its first and last line,
    the cycle of functions that it is proved in, and the first line of the impl or the trait that it is in."""
    path: str
    file: str
    first: int
    last: int
    cycle: str
    block: str

    def folder(self, homes):
        """The path of the folder below proofs/ that has its proof, or None if the source doesn't tell. `homes` has the modules
        that declare a type, by the type's name."""
        names, block = self.path.split('::'), IMPL.match(self.block)
        if self.cycle or not RESERVED.isdisjoint(names) or self.block and (not block or block[1] == 'Drop'):
            return None
        if block and block[1]:
            return [*module_of(self.file), *names]
        at = homes.get(names[0], []) if block else [[]]
        return [*at[0], *names] if len(at) == 1 else None

    def has_answer(self, file):
        """Whether this file has answers for it; functions of a cycle share one."""
        return f'/{self.path.replace("::", "/")}/' in file or self.cycle and f'/+{self.cycle}/' in file

    def has_goal(self, line):
        """Whether the goal that a line names belongs to this function, not to another one of its cycle."""
        return not self.cycle or re.search(rf'`(?:\w+::)*{self.path.rpartition("::")[2]}-', line)


@dataclasses.dataclass
class Mutant:
    """A mutant: its crate and name, the texts that it changes with their files, and the functions that must be refused."""
    crate: str
    name: str
    pairs: list
    functions: list
    anywhere: bool

    def label(self):
        return f'{self.crate}/{self.name}'

    def applied(self, texts):
        """The texts of the crate's files with this mutant applied; `texts` has the files that other mutants have changed."""
        changed = dict(texts)
        for file, old, new in self.pairs:
            path = TOP / 'crates' / self.crate / file
            if file not in changed and not path.is_file():
                raise BadMutant(f'there is no file {file}')
            text = changed[file] if file in changed else path.read_text(encoding='utf-8')
            if text.count(old) != 1:
                raise BadMutant(f'an old text occurs {text.count(old)} times in {file}, not once')
            changed[file] = text.replace(old, new)
        return changed


def module_of(file):
    """The path of the module in a source file."""
    return [it for it in file[4:-3].split('/') if it not in ('lib', 'main')]


def enclosing(lines, number, form):
    """The innermost item of this form that contains the line. `rt fmt` puts its last brace under its first letter."""
    for first in range(number, -1, -1):
        if found := form.match(lines[first]):
            for last in range(first, len(lines)):
                if lines[last] == found[1] + '}' or last == first and lines[last].endswith('}'):
                    break
            if last >= number:
                return first, last, found
    return None


def type_of(block):
    """The segment that an impl or a trait has in the path of its functions."""
    head = re.sub(r'\bwhere\b.*|\{.*', '', block)
    trait, _, of = head.rpartition(' for ')
    found = re.match(r"\s*(?:&(?:'\w+ )?(?:mut )?)?(?:dyn )?(?:\w+::)*\[?(\w+)", of)
    name = found[1] if found else ''
    if not trait or not name:
        return name
    return name[0].upper() + name[1:] + re.match(r'\s*(?:\w+::)*(\w+)', trait)[1]


def function_at(file, lines, number):
    """The function of a source that contains the line, or None."""
    found = enclosing(lines, number, FUNCTION)
    if not found:
        return None
    first, last, head = found
    block = enclosing(lines, first - 1, BLOCK) if head[1] and first else None
    path = '::'.join([*([type_of(block[2][2])] if block else module_of(file)), head[2]])
    cycle = ''
    while first and lines[first - 1].lstrip().startswith(('#[', '///')):
        first -= 1
        if named := CYCLE.match(lines[first]):
            cycle = named[1]
    return Function(path, file, first + 1, last + 1, cycle, lines[block[0]] if block else '')


def functions_in(folder):
    """The functions of the crate in a folder."""
    for source in sorted((folder / 'src').rglob('*.rt')):
        lines = source.read_text(encoding='utf-8').split('\n')
        for number, line in enumerate(lines):
            if FUNCTION.match(line) and (found := function_at(str(source.relative_to(folder)), lines, number)):
                yield found


def function_named(crate, path):
    """The function of a crate with this path."""
    for found in functions_in(TOP / 'crates' / crate):
        if found.path == path:
            return found
    raise BadMutant(f'there is no function {path}')


def homes_in(folder):
    """The modules that declare types, in the crate in a folder, by the types' names."""
    homes = {}
    for source in sorted((folder / 'src').rglob('*.rt')):
        for found in filter(None, map(TYPE.match, source.read_text(encoding='utf-8').split('\n'))):
            homes.setdefault(found[1], []).append(module_of(str(source.relative_to(folder))))
    return homes


def take_as_proved(folder, crate, functions):
    """Replaces the proofs of all functions of the crate in a folder by holes, except for these functions, their cycles, and those
    whose proofs the source doesn't tell the place of."""
    homes, paths, cycles = homes_in(folder), {it.path for it in functions}, {f'+{it.cycle or it.path.rpartition("::")[2]}' for it in functions}
    places = [it.folder(homes) for it in functions_in(folder) if it.path not in paths]
    places += [it.relative_to(folder / 'proofs').parts for it in (folder / 'proofs').rglob('+*') if it.name not in cycles]
    for names in filter(None, places):
        place = folder / 'proofs' / pathlib.Path(*names)
        # a function that calls itself has its proof there, like a cycle
        if (place.parent / f'+{place.name}').is_dir():
            continue
        place.mkdir(parents=True, exist_ok=True)
        for name in ('Answers.antt', 'Invariants.antt'):
            (place / name).unlink(missing_ok=True)
        path = '.'.join(names)
        statement = path if names[-1].startswith('+') else f'{path}.Statement'
        (place / 'Proof.antt').write_text(HOLE.format(crate=crate, statement=statement, name=names[-1]), encoding='utf-8')


def read(path):
    """Reads a mutant from its file."""
    crate, named, pairs, file, old, anywhere = path.parent.name, [], [], '', '', False
    for line in path.read_text(encoding='utf-8').split('\n'):
        word, _, text = line.partition(':')
        text = text.removeprefix(' ')
        if word == 'file':
            file = text.strip()
        elif word == 'in' and text == 'all':
            anywhere = True
        elif word == 'in':
            named.append(function_named(crate, text))
        elif word == 'old':
            old = text
        elif word == 'new':
            if not old or not file.startswith(tuple(f'{it}/' for it in PARTS)):
                raise BadMutant('a line `new:` comes before a line `old:` or a valid line `file:`')
            pairs.append((file, old, text))
            old = ''
    if not pairs or all(old == new for _, old, new in pairs):
        raise BadMutant('it changes nothing')
    mutant = Mutant(crate, path.name, pairs, named, anywhere)
    mutant.applied({})
    if not named and not anywhere:
        mutant.functions = functions_of(mutant)
    return mutant


def functions_of(mutant):
    """The functions that contain a mutant."""
    found = {}
    for file, old, _ in mutant.pairs:
        if file.startswith('src/'):
            text = (TOP / 'crates' / mutant.crate / file).read_text(encoding='utf-8')
            at = text.index(old) + len(old) - len(old.lstrip())
            function = function_at(file, text.split('\n'), text.count('\n', 0, at))
            if function:
                found[function.path] = function
    if not found:
        raise BadMutant('it is outside of all functions, and no line `in: PATH` names one')
    return list(found.values())


def rounds_of(mutants):
    """Sorts the mutants of a crate into rounds. Those of a round are in different functions and cycles, so they can be applied together."""
    rounds = []
    for mutant in mutants:
        if mutant.anywhere or any(not file.startswith(('src/', 'proofs/')) for file, _, _ in mutant.pairs):
            rounds.append(([mutant], None, None))
            continue
        held = {it.cycle and (it.file, it.cycle) or it.path for it in mutant.functions}
        for at, (others, names, texts) in enumerate(rounds):
            if names is not None and not names & held:
                try:
                    rounds[at] = [*others, mutant], names | held, mutant.applied(texts)
                    break
                except BadMutant:
                    pass
        else:
            rounds.append(([mutant], held, mutant.applied({})))
    return [mutants for mutants, _, _ in rounds]


def checked(crates, mutants, kept, has_holes):
    """Applies these mutants to a copy of their crate and checks the functions that contain them. With `has_holes`, takes what
    they call as proved. Returns the status and the lines that the check printed. The folder `kept` has what earlier checks
    kept, which isn't checked again if unchanged."""
    name = mutants[0].crate
    texts = {}
    for mutant in mutants:
        texts = mutant.applied(texts)
    functions = [it for mutant in mutants for it in mutant.functions]
    words = [f'{crates.kit}/bin/rattle', 'check', *crates.words(name), '--incremental', kept, '--jobs', '1']
    for path in dict.fromkeys(it.path for it in functions):
        words += ['--only', path]
    with tempfile.TemporaryDirectory(prefix='mutants-') as room:
        for part in PARTS:
            if (TOP / 'crates' / name / part).is_dir():
                shutil.copytree(TOP / 'crates' / name / part, f'{room}/{part}')
        for file, text in texts.items():
            pathlib.Path(room, file).write_text(text, encoding='utf-8')
        if has_holes:
            words.append('--allow-holes')
            take_as_proved(pathlib.Path(room), name, functions)
        run = subprocess.run(words, cwd=room, stdin=subprocess.DEVNULL, stdout=subprocess.PIPE, stderr=subprocess.STDOUT, encoding='utf-8', errors='replace')
    return run.returncode, run.stdout.rstrip('\n').split('\n')


def open_goal(function, lines, is_alone):
    """The first line about an open goal of this function, or about an answer to one. Prefers a line about a goal to one about
    a name that a proof uses and the changed function lacks. If other mutants are in the same cycle of functions, only lines
    that name this function count."""
    found = []
    for line in lines:
        said = SAID.match(line)
        if said and 'error' not in said[3] and not line.startswith('note: '):
            continue
        is_within = said and said[1] == function.file and function.first <= int(said[2]) <= function.last
        if is_within or said and function.has_answer(said[1]) and (is_alone or function.has_goal(line)):
            found.append(line.removeprefix('note: ').removeprefix('./'))
    # the line about the function also names its goals
    own = (it for it in lines if it.startswith('fn ') and f'::{function.path}: ' in it)
    told = (it for it in own if is_alone or function.has_goal(it))
    named = next((it for it in told if '` did not prove `' in it or ': could not tell' in it), None)
    return next((it for it in found if not NAMES.search(it)), None) or next(iter(found), named)


def verdict(mutant, lines, is_alone):
    """Whether a mutant is refused, and what to print about it. `is_alone`: no other mutant is tried with it."""
    if mutant.anywhere:
        goal = next((it.removeprefix('note: ') for it in lines if SAID.match(it) and ('error' in it or it.startswith('note: '))), None)
        return (True, goal) if goal and lines[-1].startswith('logic=not-proved') else (False, 'NOT REFUSED: the crate is still proved')
    for function in mutant.functions:
        if goal := open_goal(function, lines, is_alone):
            return True, f'{function.path}: {goal}'
    return False, f'NOT REFUSED: no goal was found that stays open in {", ".join(it.path for it in mutant.functions)}'


def unread(mutants, lines):
    """The first line that says that a text can't be read, or None."""
    changed = {file for mutant in mutants for file, _, _ in mutant.pairs}
    for line in lines:
        said = SAID.match(line)
        if said and not line.startswith('note: ') and 'error' in said[3] and (said[1] in changed or said[1].startswith(('src/', 'specs/'))):
            named = re.match(r'error: (?:(`[^`]*`): )?(.*)', said[3])
            if named and (not named[1] or UNREAD.search(re.sub(r'`[^`]*`', '', named[2]))):
                return line
    return None


def tried(crates, mutants, kept, has_holes=True):
    """Tries mutants of one crate together. Returns for each whether it is refused, and what to print about it. A check prints a
    limited number of goals, so mutants without one are tried again without the others. If there is no verdict at all, tries
    each half; and a mutant that isn't refused is tried once more, with everything that its function calls proved."""
    has_holes = has_holes and all(it.functions for it in mutants)
    status, lines = checked(crates, mutants, kept, has_holes)
    if status == -signal.SIGKILL:
        return [(it, False, 'NOT TRIED: its check was killed, probably because memory ran out') for it in mutants]
    if has_holes and any(map(NO_HOLE.match, lines)):
        return tried(crates, mutants, kept, False)
    bad = unread(mutants, lines)
    if not bad and (lines[-1].startswith(('logic=', 'rattle: no verdict')) or any(it.startswith('fn ') for it in lines)):
        told = [(it, *verdict(it, lines, len(mutants) == 1)) for it in mutants]
        left = [mutant for mutant, is_refused, _ in told if not is_refused]
        if not left or len(mutants) == 1 and not has_holes:
            return told
        if len(left) < len(mutants):
            return [it for it in told if it[1]] + tried(crates, left, kept, has_holes)
    if len(mutants) > 1:
        half = len(mutants) // 2
        return tried(crates, mutants[:half], kept, has_holes) + tried(crates, mutants[half:], kept, has_holes)
    if has_holes:
        return tried(crates, mutants, kept, False)
    why = bad or next((it for it in lines if re.search(r'\berror[:\[]', it)), lines[0])
    return [(mutants[0], False, f'BAD MUTANT: it did not reach the prover: {why}')]


def all_tried(crates, rounds):
    """Tries the rounds of one crate in order. What they don't change is checked once."""
    with tempfile.TemporaryDirectory(prefix='mutants-kept-') as kept:
        return [it for mutants in rounds for it in tried(crates, mutants, kept)]


def side_by_side():
    """The number of checks that run at the same time: one for each processor, and at most what memory holds at 4 GB each."""
    free = re.search(r'MemAvailable:\s*(\d+)', pathlib.Path('/proc/meminfo').read_text(encoding='utf-8'))
    held = int(free[1]) // 4_000_000 if free else 1
    return max(min(len(os.sched_getaffinity(0)), held), 1)


def wanted(words):
    """The files of the mutants that have to be tried."""
    every, names = '--every' in words, [it for it in words if it != '--every']
    for name in names:
        if not (TOP / 'crates' / name / 'src').is_dir():
            raise BadMutant(f'{name}: there is no such crate')
    listed = [HERE / f'{line}.mutant' for line in (HERE / 'gate.txt').read_text(encoding='utf-8').split()]
    files = sorted(HERE.glob('*/*.mutant')) if every else listed
    return [it for it in files if not names or it.parent.name in names]


def main():
    # bytes pass unchanged in every locale
    sys.stdout.reconfigure(encoding='utf-8', errors='surrogateescape')
    crates, by_crate, passed, failed = Crates(), {}, 0, 0

    def tell(mutant, is_refused, text):
        nonlocal passed, failed
        passed, failed = passed + is_refused, failed + (not is_refused)
        say(f'{mutant}: {"refused: " if is_refused else ""}{text[:240]}')

    try:
        files = wanted(sys.argv[1:])
    except (BadMutant, OSError) as error:
        say(f'not tried: {error}')
        say('0 passed, 1 failed')
        return 1
    for path in files:
        try:
            mutant = read(path)
            by_crate.setdefault(mutant.crate, []).append(mutant)
        except (BadMutant, OSError) as error:
            tell(f'{path.parent.name}/{path.name}', False, f'BAD MUTANT: {error}')
    tasks = []
    for name, mutants in by_crate.items():
        if lacking := crates.lacking(name):
            for mutant in mutants:
                tell(mutant.label(), False, f'NOT TRIED: {lacking[0]} is not built from the current sources: run dev/test, or dev/prove {" ".join(lacking)}')
        else:
            tasks.append(rounds_of(mutants))
    tasks.sort(key=lambda it: -sum(map(len, it)))
    with ThreadPoolExecutor(side_by_side()) as pool:
        for results in pool.map(lambda it: all_tried(crates, it), tasks):
            for mutant, is_refused, text in results:
                tell(mutant.label(), is_refused, text)
    say(f'{sum(map(len, tasks))} checks')
    say(f'{passed} passed, {failed} failed')
    return 1 if failed else 0


if __name__ == '__main__':
    sys.exit(main())
