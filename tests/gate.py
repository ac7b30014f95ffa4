#!/usr/bin/env python3
"""The gate. Checks the names of definitions, the prose, the quotations, links and facts in pages, the header for C and that it keeps to its
earlier versions, whether a crate has changed since the C in generated/ was written, the logic of the toolchain, the scripts that
run programs, the printer of Rust, that doc comments state preconditions, and that generated/rust is what the sources are printed as.
Then runs `rt ci`, which proves and builds everything; compares what it reports that the proofs rest on with `tests/axioms.txt`;
and tries the mutants with the libraries that it built. Builds the programs and runs the tests of tests/crates with cargo, which
are plain Rust over generated/rust. Then runs the outside vectors and the streams with the programs that `rt ci` built, and the
cases, the hostile runs and the streams with those that cargo built.

    gate.py [--anew]

With --anew, `rt ci` proves everything again, including what passed before on this machine. A toolchain that keeps nothing
between runs doesn't know the option, and proves everything anyway.

Shows what each part prints. Each part ends with a line `N passed, M failed`, which is shown after the name of the part.
The last line is the sum of all. The exit status is 0 exactly if nothing failed.

`rt ci` starts without `out/` folders and leaves there the programs that it built; cargo leaves its own in build/cargo. Programs
of earlier runs are removed first, so that no old program is tested. A part whose program is missing counts as one failure.

`rt ci` checks one crate per processor, each in one job (RT_JOBS, unless that is set already). With four jobs for one
crate, the first check of capnp_words took a third more processor time."""
import os
import pathlib
import re
import shutil
import subprocess
import sys

import axioms
from crates.run import PROGRAMS, ROWS, RUNS, STREAM_RUNS
from mutants.run import side_by_side

TOP = pathlib.Path(__file__).resolve().parents[1]
sys.path.append(str(TOP / 'tools'))
from libraries import Crates

# The programs that `rt ci` builds.
TOOL, CANON = PROVED_PROGRAMS = [TOP / f'crates/{name}/out/{name}' for name in ('layout_tool', 'capnp_canon')]
# What runs with programs that were built: the name of the part, its script and the programs.
OVER_PROGRAMS = (
    ('vectors', TOP / 'tests/vectors/run.py', (TOOL,)),
    ('cases', TOP / 'tests/cases/run.py', (ROWS,)),
    ('hostile', TOP / 'tests/hostile/run.py', (RUNS, ROWS)),
    ('streams', TOP / 'tests/streams/run.py', (CANON, STREAM_RUNS)),
)
COUNTS = re.compile(r'(\d+) passed, (\d+) failed')
# What `rt ci` prints when a crate is proved.
PROVED = re.compile(r'rt: (\w+) (?:proved$|is kept\b)')


def say(text):
    print(text, flush=True)


def remove(path):
    if path.is_dir() and not path.is_symlink():
        shutil.rmtree(path)
    else:
        path.unlink(missing_ok=True)


def counted(name, command, printed=None, crates=(), **settings):
    """Runs a command, shows what it prints, and returns how many passed and failed according to its last line. If the exit
    status contradicts that, or nothing was counted, that is one more failure. Adds the lines to `printed`. After each of these
    crates that is proved, says how many are."""
    last, printed, proved = '', [] if printed is None else printed, set()
    try:
        with subprocess.Popen(command, cwd=TOP, env={**settings, **os.environ}, stdin=subprocess.DEVNULL, stdout=subprocess.PIPE, encoding='utf-8', errors='surrogateescape') as run:
            for line in run.stdout:
                last = line.rstrip('\n')
                printed.append(last)
                say(f'{name}: {last}' if COUNTS.fullmatch(last) else last)
                if (found := PROVED.match(last)) and found[1] in crates:
                    proved.add(found[1])
                    say(f'{name}: {len(proved)} of {len(crates)} crates are proved')
    except OSError as error:
        say(f'{name}: not run: {error}')
        return 0, 1
    found = COUNTS.fullmatch(last)
    if not found:
        say(f'{name}: ended with status {run.returncode}, without a count in its last line')
        return 0, 1
    passed, failed = int(found[1]), int(found[2])
    if failed == 0 and (run.returncode or not passed):
        say(f'{name}: ended with status {run.returncode} although {passed} passed and none failed, which is a failure')
        failed = 1
    return passed, failed


def proving(words):
    """The command that proves everything, with those of these options that the toolchain knows."""
    told = subprocess.run(['rt', 'help'], stdin=subprocess.DEVNULL, stdout=subprocess.PIPE, stderr=subprocess.STDOUT, encoding='utf-8', errors='replace').stdout
    return ['rt', 'ci', *(word for word in words if word in told)]


def resting(printed):
    """Compares what `rt ci` reported that the proofs rest on."""
    passed, failed = axioms.compare(printed)
    say(f'axioms: {passed} passed, {failed} failed')
    return passed, failed


def over_programs(name, script, programs):
    for program in programs:
        if not program.is_file():
            say(f'{name}: not run, because {program.relative_to(TOP)} was not built')
            return 0, 1
    return counted(name, [sys.executable, str(script), *map(str, programs)])


def main():
    # bytes pass unchanged in every locale
    sys.stdout.reconfigure(encoding='utf-8', errors='surrogateescape')
    if sys.argv[1:] not in ([], ['--anew']):
        sys.exit(__doc__)
    for program in (*PROVED_PROGRAMS, *PROGRAMS):
        remove(program)
    printed = []
    parts = [
        counted('names', [sys.executable, str(TOP / 'tests/names.py')]),
        counted('prose', [sys.executable, str(TOP / 'tests/prose.py')]),
        counted('pages', [sys.executable, str(TOP / 'tools/theorem.py'), '--check']),
        counted('links', [sys.executable, '-B', str(TOP / 'tests/release/pages.py'), str(TOP)]),
        counted('facts', [sys.executable, '-B', str(TOP / 'tools/facts.py'), '--check']),
        counted('header', [sys.executable, str(TOP / 'tests/library/header.py')]),
        counted('interface', [sys.executable, '-B', str(TOP / 'tests/library/interface.py')]),
        counted('generated', [sys.executable, str(TOP / 'tools/generated.py'), '--sums']),
        counted('printer', [sys.executable, str(TOP / 'tests/rust/texts.py')]),
        counted('preconditions', [sys.executable, '-B', str(TOP / 'tests/rust/preconditions.py')]),
        counted('rust', [sys.executable, str(TOP / 'tools/rust/generated.py'), '--check']),
        counted('toolchain', [sys.executable, str(TOP / 'tests/toolchain.py')]),
        counted('scripts', [sys.executable, '-B', str(TOP / 'tests/scripts.py')]),
        counted('rt ci', proving(sys.argv[1:]), printed, Crates().stands_on, RT_JOBS=str(side_by_side())),
        resting(printed),
        counted('mutants', [sys.executable, str(TOP / 'tests/mutants/run.py')]),
        counted('crates', [sys.executable, '-B', str(TOP / 'tests/crates/run.py')]),
        *(over_programs(*it) for it in OVER_PROGRAMS),
    ]
    passed, failed = (sum(it) for it in zip(*parts))
    say(f'{passed} passed, {failed} failed')
    return 1 if failed else 0


sys.exit(main())
