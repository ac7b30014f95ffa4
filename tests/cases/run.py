#!/usr/bin/env python3
"""Runs cases with a built layout_rows, and prints those with a wrong answer.

    run.py BINARY [FILE..] [--limit SECONDS] [--show N]

Runs the cases of these files, or of all .jsonl files in this folder. The part of a file's name before the first `_` or `.`
is the command of the program. Each line of a file is one case: an object with a line of standard input and the line of
standard output that is expected. One run answers all cases of a file. A case that builds a message runs a second time,
with its first segment in scratch space of the same size, and must have the same answer. README.md in this folder
describes the language of cases. The answers were made outside of this repository."""
import argparse
import itertools
import json
import pathlib
import re
import subprocess
import sys


def answers(binary, command, cases, limit):
    """The lines that the program prints for these cases, and what is wrong with the run itself, or an empty text."""
    text = ''.join(case['stdin'] for case in cases)
    try:
        run = subprocess.run([binary, command], input=text, stdout=subprocess.PIPE, timeout=limit, encoding='latin-1')
    except (OSError, subprocess.TimeoutExpired) as error:
        return [], str(error)
    lines = [line + '\n' for line in run.stdout.split('\n')[:-1]]
    if run.returncode or len(lines) != len(cases):
        return lines, f'{len(lines)} lines for {len(cases)} cases, status {run.returncode}'
    return lines, ''


def lent(case):
    """The case with its first segment in scratch space; None if segments are very large, or their size isn't given."""
    words, _, rest = case['stdin'].partition(' ')
    if not re.fullmatch(r'\d{1,5}', words) or not rest:
        return None
    return {**case, 'stdin': f'{words}/{max(int(words), 1)} {rest}'}


def tried(binary, path, options):
    """The numbers of cases of a file that passed and that failed. Shows the first failures."""
    cases = [(number, json.loads(line)) for number, line in enumerate(path.open(encoding='utf-8'), 1)]
    command = re.split('[_.]', path.name)[0]
    if command in ('builds', 'edits'):
        cases += [(number, again) for number, case in cases if (again := lent(case))]
    lines, wrong = answers(binary, command, [case for _, case in cases], options.limit)
    failed = 0
    for (number, case), line in itertools.zip_longest(cases, lines[:len(cases)], fillvalue='(no line)'):
        if line != case['stdout']:
            failed += 1
            if failed <= options.show:
                print(f"{path.name}:{number} {case['stdin'].strip():.200}\n  wanted {case['stdout'].strip():.400}\n  got    {line.strip():.400}")
    if wrong or not cases:
        print(f"{path.name}: {wrong or 'no case was run'}")
        failed = max(failed, 1)
    return max(len(cases) - failed, 0), failed


def main():
    parser = argparse.ArgumentParser(description=__doc__, formatter_class=argparse.RawDescriptionHelpFormatter)
    parser.add_argument('binary')
    parser.add_argument('files', nargs='*', type=pathlib.Path)
    parser.add_argument('--limit', type=float, default=120)
    parser.add_argument('--show', type=int, default=5)
    options = parser.parse_args()
    paths = options.files or sorted(pathlib.Path(__file__).resolve().parent.glob('*.jsonl'))
    counts = [tried(options.binary, path, options) for path in paths] or [(0, 1)]
    passed, failed = (sum(it) for it in zip(*counts))
    print(f'{passed} passed, {failed} failed')
    return 1 if failed else 0


sys.exit(main())
