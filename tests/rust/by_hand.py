#!/usr/bin/env python3
"""Tests what is written by hand in the crate of generated/rust: departures and support. Runs the tests of by_hand/ by cargo,
over a copy of the crate, with overflow checks.

    by_hand.py [FOLDER]

FOLDER is generated/rust by default, or a copy of it. The last line is `N passed, M failed`."""
import hashlib
import pathlib
import re
import shutil
import subprocess
import sys
import tempfile

HERE = pathlib.Path(__file__).resolve().parent
COUNTS = re.compile(r'^test result: .*?(\d+) passed; (\d+) failed', re.MULTILINE)


def tested(crate, room):
    """How many tests passed and failed, and what cargo printed."""
    shutil.copytree(crate, room, ignore=shutil.ignore_patterns('target', 'Cargo.lock'))
    shutil.copytree(HERE / 'by_hand', room / 'tests')
    rows = (f'{n} {hashlib.sha256(bytes(7 * it % 256 for it in range(n))).hexdigest()}\n' for n in (*range(260), 5000))
    (room / 'tests/sha256.txt').write_text(''.join(rows), encoding='utf-8')
    command = ['cargo', 'test', '--offline', '-j2', '--quiet', '--features', 'programs', '--tests', '--no-fail-fast']
    run = subprocess.run(command, cwd=room, stdin=subprocess.DEVNULL, stdout=subprocess.PIPE, stderr=subprocess.STDOUT, encoding='utf-8')
    found = COUNTS.findall(run.stdout)
    passed, failed = (sum(int(it[part]) for it in found) for part in (0, 1))
    return passed, failed if passed and (failed or not run.returncode) else failed + 1, run.stdout


def main():
    with tempfile.TemporaryDirectory(prefix='by-hand-') as room:
        crate = sys.argv[1] if sys.argv[1:] else HERE.parents[1] / 'generated/rust'
        passed, failed, printed = tested(crate, pathlib.Path(room) / 'crate')
    print(*(printed.splitlines() if failed else []), f'{passed} passed, {failed} failed', sep='\n')
    return 1 if failed else 0


sys.exit(main())
