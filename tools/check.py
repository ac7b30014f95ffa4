#!/usr/bin/env python3
"""Proves a crate, or some functions of it, over the libraries that `dev/test` or `dev/prove` built.

    check.py CRATE [FUNCTION..]

A FUNCTION is a path such as `read_limiter::ReadLimiter::can_read`. Prints what is open, as `rattle check` does: each goal,
the facts known there, and the lines to put into a file of answers. Keeps in `out/checked` of the crate what is proved, so
that the next check proves only what changed. `rt check` would prove the crates below again.

Exit status: 0 if everything is proved, 1 if something isn't, 2 if a library is missing or the arguments are wrong."""
import subprocess
import sys

from libraries import Crates

# Lines about what was loaded, which say nothing of a proof.
LOADED = 'statements ', 'logic /', 'crate '


def main(words):
    crates = Crates()
    if not words or words[0] not in crates.stands_on:
        sys.stderr.write(__doc__ if not words else f'check: {words[0]} is not a crate of crates.txt\n')
        return 2
    name, *functions = words
    lacking = crates.lacking(name)
    if lacking:
        sys.stderr.write(f'check: these libraries are not built from the current sources: run dev/test, or dev/prove {" ".join(lacking)}\n')
        return 2
    command = [f'{crates.kit}/bin/rattle', 'check', *crates.words(name), '--incremental', 'out/checked']
    for path in functions:
        command += ['--only', path]
    folder = crates.top / 'crates' / name
    with subprocess.Popen(command, cwd=folder, stdin=subprocess.DEVNULL, stdout=subprocess.PIPE, stderr=subprocess.STDOUT, encoding='utf-8', errors='replace') as run:
        for line in run.stdout:
            if not line.startswith(LOADED):
                print(line, end='', flush=True)
    return run.returncode


sys.exit(main(sys.argv[1:]))
