#!/usr/bin/env python3
"""Builds and tests the cargo workspace of this folder: programs and tests in plain Rust over the crate of generated/rust.

    run.py              builds the programs, without a warning, and runs all tests
    run.py --build      only builds the programs, and prints the folder that has them

Works in build/cargo of the repository. A program that is built counts as one that passed, and so does each `#[test]`; one that
the sources have and that didn't run counts as failed. The last line is `N passed, M failed`. CARGO_BUILD_JOBS limits the number
of processes."""
import os
import pathlib
import re
import shutil
import subprocess
import sys

HERE = pathlib.Path(__file__).resolve().parent
TARGET = HERE.parents[1] / 'build/cargo'
FOLDER = TARGET / 'debug'
# The programs, by which the scripts of tests/ take them.
PROGRAMS = ROWS, RUNS, STREAM_RUNS, CONFORMING_RUNS = [FOLDER / it for it in ('layout_rows', 'layout_runs', 'stream_runs', 'conforming_runs')]
TESTED = re.compile(r'(?m)^test result: .* (\d+) passed; (\d+) failed;')
TEST = re.compile(r'(?m)^\s*#\[test\]$')


def cargo(*words, **how):
    """Runs cargo here, without a registry and without warnings."""
    settings = {**os.environ, 'CARGO_TARGET_DIR': str(TARGET), 'RUSTFLAGS': '-Dwarnings'}
    command = ['cargo', *words, '--workspace', '--offline', '--locked', '--quiet']
    return subprocess.run(command, cwd=HERE, env=settings, stdin=subprocess.DEVNULL, encoding='utf-8', errors='replace', **how)


def build():
    """Builds the programs. Those of earlier builds are removed first, so a failed build leaves none. Returns how many there are."""
    for program in PROGRAMS:
        program.unlink(missing_ok=True)
    if not shutil.which('cargo'):
        print('cargo is not in the path: it builds the programs and the tests of tests/crates', file=sys.stderr, flush=True)
        return 0
    cargo('build', '--bins', stdout=sys.stderr)
    return sum(it.is_file() for it in PROGRAMS)


def tests():
    """Runs the tests. Returns how many passed and failed."""
    sources = (it for folder in ('src', 'tests') for it in HERE.glob(f'*/{folder}/**/*.rs'))
    wanted = sum(len(TEST.findall(it.read_text(encoding='utf-8'))) for it in sources)
    run = cargo('test', '--no-fail-fast', stdout=subprocess.PIPE, stderr=subprocess.STDOUT)
    counts = [(int(it[1]), int(it[2])) for it in TESTED.finditer(run.stdout)]
    passed, failed = sum(it[0] for it in counts), sum(it[1] for it in counts)
    failed = max(failed, wanted - passed, int(run.returncode != 0))
    if failed:
        print(run.stdout, end='')
    print(f'tests: {passed} of {wanted} passed')
    return passed, failed


def main(words):
    if words not in ([], ['--build']):
        sys.exit(__doc__)
    built = build()
    if words:
        print(FOLDER)
        return int(built < len(PROGRAMS))
    print(f'programs: {built} of {len(PROGRAMS)} built', flush=True)
    passed, failed = tests() if built else (0, 0)
    print(f'{built + passed} passed, {len(PROGRAMS) - built + failed} failed')
    return int(built < len(PROGRAMS) or failed > 0)


if __name__ == '__main__':
    sys.exit(main(sys.argv[1:]))
