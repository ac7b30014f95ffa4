#!/usr/bin/env python3
"""Runs only two parts of tests/streams/run.py, the cases and the altered streams: for builds that are slow to start, or take more
memory. The variable RUNNER has the command that runs programs for another machine.

    streams.py TESTS_STREAMS CAPNP_CANON"""
import os
import pathlib
import shlex
import sys
import tempfile

HERE = pathlib.Path(sys.argv[1])
sys.path += [str(HERE), str(HERE.parent / 'hostile')]

import hostile
from program import Counts
from runs import Program, stored


def run_by(runner, program, folder):
    """The program, or a script that runs it."""
    if not runner:
        return program
    script = pathlib.Path(folder) / pathlib.Path(program).name
    script.write_text(f'#!/bin/sh\nexec {runner} {shlex.quote(program)} "$@"\n', encoding='utf-8')
    script.chmod(0o755)
    return str(script)


def main():
    counts = Counts(10)
    with tempfile.TemporaryDirectory(prefix='streams-') as folder:
        program = Program(run_by(os.environ.get('RUNNER'), sys.argv[2], folder), 300)
        stored(program, counts)
        hostile.altered(program, counts)
    print(f'{counts.passed} passed, {counts.failed} failed')
    return 1 if counts.failed else 0


sys.exit(main())
