#!/usr/bin/env python3
"""Tests the printer of tools/rust and the crate of generated/rust.

    run.py [NAME..]

NAMEs choose some of the parts:

- texts: small texts in Rattle, and what they are printed as (texts.txt).
- check: sums, the audit, and printing again (tools/rust/generated.py).
- by_hand: departures and support, by tests in Rust.
- planted: bugs planted in the crate, in the printer, in what is written by hand and in doc comments: each must be found.
- programs: programs over the crate, tested as the proved ones are; minutes.

Needs cargo, and rustfmt for check and planted. The last line is `N passed, M failed`."""
import pathlib
import re
import subprocess
import sys

HERE = pathlib.Path(__file__).resolve().parent
PARTS = {
    'texts': ('texts.py',),
    'check': ('../../tools/rust/generated.py', '--check'),
    'by_hand': ('by_hand.py',),
    'planted': ('planted.py',),
    'programs': ('programs.py',),
}
COUNTS = re.compile(r'(\d+) passed, (\d+) failed')


def main(names):
    if unknown := [it for it in names if it not in PARTS]:
        sys.exit(f'run.py: there is no part {" ".join(unknown)}\n\n{__doc__}')
    passed = failed = 0
    for name, (script, *words) in PARTS.items():
        if names and name not in names:
            continue
        run = subprocess.run([sys.executable, '-B', str(HERE / script), *words], stdin=subprocess.DEVNULL, stdout=subprocess.PIPE, stderr=subprocess.STDOUT, encoding='utf-8', errors='replace')
        lines = run.stdout.splitlines() or ['']
        found = COUNTS.fullmatch(lines[-1])
        more = (int(found[1]), max(int(found[2]), int(run.returncode != 0))) if found else (0, 1)
        print(*(lines if more[1] or not found else [it for it in lines[:-1] if 'skipped' in it]), f'{name}: {more[0]} passed, {more[1]} failed', sep='\n', flush=True)
        passed, failed = passed + more[0], failed + more[1]
    print(f'{passed} passed, {failed} failed')
    return 1 if failed or not passed else 0


sys.exit(main(sys.argv[1:]))
