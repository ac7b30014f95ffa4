#!/usr/bin/env python3
"""Runs a command whose last line is `N passed, M failed`. Prints one line before that one: the processor minutes of the
command and everything that it started, and their ratio to the first proof of a crate.

    minutes.py CRATE COMMAND WORD..

The crate depends on no other crate of the repository. It is proved from nothing five times before the command and five
times after it, in a folder of its own, and the ratio is to the median of the ten. Minutes differ from machine to
machine; the ratio is what two machines can compare. One first proof isn't enough: on an idle machine one has taken half
as much again as another.

The exit status is the command's. If the command ends without such a line, the last line is `0 passed, 1 failed`."""
import pathlib
import re
import resource
import shutil
import statistics
import subprocess
import sys
import tempfile

TOP = pathlib.Path(__file__).resolve().parents[1]
COUNTS = re.compile(r'\d+ passed, \d+ failed\n')


def minutes():
    """The processor minutes of all processes that this one started and that have ended."""
    used = resource.getrusage(resource.RUSAGE_CHILDREN)
    return (used.ru_utime + used.ru_stime) / 60


def first_proof(crate):
    """The processor minutes of a proof of this crate on its own, or None if it isn't proved. `rt verdict` reuses nothing."""
    with tempfile.TemporaryDirectory(prefix='first-proof-') as room:
        top = pathlib.Path(room)
        shutil.copytree(TOP / 'crates' / crate, top / 'crates' / crate, ignore=shutil.ignore_patterns('out'))
        shutil.copy2(TOP / 'HANDLES', top)
        (top / 'crates.txt').write_text(f'{crate}:\n', encoding='utf-8')
        before = minutes()
        try:
            run = subprocess.run(['rt', 'verdict'], cwd=top / 'crates' / crate, stdin=subprocess.DEVNULL, stdout=subprocess.DEVNULL)
        except OSError:
            return None
        return None if run.returncode else minutes() - before


def first_proofs(crate):
    """The processor minutes of five first proofs, or an empty list if one of them fails."""
    taken = [first_proof(crate) for _ in range(5)]
    return [] if None in taken else taken


def ratio(used, crate, before, after):
    """Says how many first proofs these minutes are."""
    if not before or not after:
        return f'{crate} was not proved'
    taken = sorted(before + after)
    median = statistics.median(taken)
    return f'{used / median:.1f} first proofs of {crate} (median {median:.3f} of {len(taken)}, from {taken[0]:.3f} to {taken[-1]:.3f})'


def main():
    # bytes pass unchanged in every locale
    sys.stdout.reconfigure(encoding='utf-8', errors='surrogateescape')
    crate, *command = sys.argv[1:]
    first = first_proofs(crate)
    before, held = minutes(), ''
    with subprocess.Popen(command, stdout=subprocess.PIPE, encoding='utf-8', errors='surrogateescape') as run:
        for line in run.stdout:
            # this may be the last line: hold it back until the next one comes
            held, shown = (line, held) if COUNTS.fullmatch(line) else ('', held + line)
            print(shown, end='', flush=True)
    used = minutes() - before
    print(f'processor minutes: {used:.1f}; {ratio(used, crate, first, first_proofs(crate))}')
    print(held or '0 passed, 1 failed\n', end='')
    return (run.returncode if run.returncode >= 0 else 128 - run.returncode) or int(not held)


sys.exit(main())
