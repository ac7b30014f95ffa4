"""Runs programs that answer each line with a line, and counts right and wrong answers."""
import subprocess
import sys

LIMIT = 120


class Counts:
    """The numbers of runs that passed and that failed. Prints the first `show` failures."""

    def __init__(self, show):
        self.passed = self.failed = 0
        self.show = show

    def told(self, holds, *what):
        if holds:
            self.passed += 1
            return
        self.failed += 1
        if self.failed <= self.show:
            print(*(f'{it!s:.300}' for it in what))


def answers(command, lines):
    """The answers of a program to these lines. Exits if the run fails."""
    text = ''.join(line + '\n' for line in lines)
    run = subprocess.run(command, input=text, stdout=subprocess.PIPE, timeout=LIMIT, encoding='latin-1')
    found = run.stdout.split('\n')[:-1]
    if run.returncode or len(found) != len(lines):
        print(f'{command}: {len(found)} answers to {len(lines)} lines, status {run.returncode}')
        print('0 passed, 1 failed')
        sys.exit(1)
    return found
