#!/usr/bin/env python3
"""Runs a built layout_tool on the vectors in this folder, and prints the runs that went wrong.

    run.py BINARY [--limit SECONDS] [--show N]

Each line of a .jsonl file is one run: its arguments and standard input, and the expected standard output, exit status and,
for some, standard error. The inputs are worked examples, random values in random layouts, altered messages, and messages
made to be refused. heavy.jsonl has short messages that take many reads, deep.jsonl messages of many levels, and
worked.jsonl runs whose answers were worked out by hand.

The other answers come from a model of the format outside of this repository, written in Python from the specification.
Those of canon, check and size were compared with the answers of Rust's capnp 0.27.3 to the same input.

Each command also runs with an input that can't be read, and with a full disk for its output."""
import argparse
import json
import os
import pathlib
import subprocess
import sys


def answer(binary, vector, limit):
    """The standard output, exit status and standard error of one run."""
    try:
        run = subprocess.run([binary, *vector['args']], input=vector['stdin'].encode('latin-1'), capture_output=True, timeout=limit)
    except subprocess.TimeoutExpired:
        return '', 'no end', ''
    return run.stdout.decode('latin-1'), run.returncode, run.stderr.decode('latin-1').strip()


# The commands to run with devices that fail, each with an input for which it writes something: a null root, or its frame.
LIMITS = '64', '8388608'
ON_DEVICES = [(['frame'], '00' * 8), (['unframe'], '00000000010000000000000000000000')] + [
    ([command, *LIMITS], '00' * 8) for command in ('canon', 'check', 'size', 'framed-canon')
] + [(['framed-check', *LIMITS], '00000000010000000000000000000000')]


def on_devices(binary, limit):
    """Runs whose input can't be read, and runs whose output can't be written: each with its outcome and the expected one."""
    for args, line in ON_DEVICES:
        with open('/dev/full', 'wb') as full:
            run = subprocess.run([binary, *args], input=f'{line}\n'.encode(), stdout=full, stderr=subprocess.DEVNULL, timeout=limit)
        yield f"{' '.join(args)} > /dev/full", run.returncode, 2
        folder = os.open('/', os.O_RDONLY)
        try:
            run = subprocess.run([binary, *args], stdin=folder, capture_output=True, timeout=limit)
        finally:
            os.close(folder)
        yield f"{' '.join(args)} < /", (run.returncode, run.stdout, run.stderr), (2, b'', b'bad input\n')
    run = subprocess.run([binary, '--help'], stdin=subprocess.DEVNULL, capture_output=True, timeout=limit)
    yield '--help', (run.returncode, run.stdout.split(b' NESTING')[0], run.stderr), (0, b'Usage: layout_tool canon', b'')
    with open('/dev/full', 'wb') as full:
        run = subprocess.run([binary, '--help'], stdin=subprocess.DEVNULL, stdout=full, stderr=subprocess.DEVNULL, timeout=limit)
    yield '--help > /dev/full', run.returncode, 2


def main():
    parser = argparse.ArgumentParser(description=__doc__, formatter_class=argparse.RawDescriptionHelpFormatter)
    parser.add_argument('binary')
    parser.add_argument('--limit', type=float, default=10)
    parser.add_argument('--show', type=int, default=10)
    options = parser.parse_args()
    passed = failed = 0
    for path in sorted(pathlib.Path(__file__).resolve().parent.glob('*.jsonl')):
        for number, line in enumerate(path.open(encoding='utf-8'), 1):
            vector = json.loads(line)
            output, status, error = answer(options.binary, vector, options.limit)
            if (output, status) == (vector['stdout'], vector['status']) and error == vector.get('stderr', error):
                passed += 1
                continue
            failed += 1
            if failed <= options.show:
                print(f"{path.name}:{number} {' '.join(vector['args'])}: wanted {vector['stdout']!r:.200} {vector['status']}, got {output!r:.200} {status} {error:.100}")
    for run, got, wanted in on_devices(options.binary, options.limit):
        if got == wanted:
            passed += 1
            continue
        failed += 1
        if failed <= options.show:
            print(f'{run}: wanted {wanted}, got {got}')
    print(f'{passed} passed, {failed} failed')
    return 1 if failed else 0


sys.exit(main())
