#!/usr/bin/env python3
"""Runs a built capnp_canon on streams of messages, and prints the runs that went wrong.

    run.py CAPNP_CANON [STREAM_RUNS] [--limit SECONDS] [--show N]

- Each line of a .jsonl file is one case: a run with its arguments, its input, its files if it has any, and the expected
  output (these three in hex digits), standard error and exit status. The cases of peer.jsonl are real messages with the
  answers of C++ Cap'n Proto 0.9.2 (tests/peer/cases.py). Those of worked.jsonl were worked out by hand from the encoding
  specification; the hashes of `digest` are Python's, over the words of other cases. Those of validate.jsonl are messages
  of tests/vectors and tests/corpus, unchanged or altered. Their answers come from a model of the format outside of this
  repository, which reads the whole value. Those of conforming.jsonl are messages of one schema, and were worked out by hand.
- vectors.py makes streams from the vectors of tests/vectors, whose answers were made outside of this repository.
- parts.py takes the rows of tests/library/rows/parts.txt, whose answers are those of C++ Cap'n Proto.
- devices.py lets standard input and output fail, limits memory, and checks how much memory a run takes.
- shown.py compares what `show` writes about messages of tests/corpus, unchanged (show.jsonl) and altered, with a model
  that is written from docs/PROGRAM.md and docs/FORMAT.md.
- differences.py compares what `diff` writes about two messages with a model that is written from docs/PROGRAM.md.
- coprocess.py waits for each answer before it writes the next message.
- progress.py runs the program on a pseudo-terminal, and looks at what the screen shows.
- hostile.py uses STREAM_RUNS, a program of tests/crates with the same engine. Its devices fail at each call in turn, and its
  streams are cut short after each byte and have each bit flipped. Without STREAM_RUNS, only these altered streams are run,
  with CAPNP_CANON."""
import argparse
import pathlib
import sys

HERE = pathlib.Path(__file__).resolve().parent
sys.path.append(str(HERE.parent / 'hostile'))

import coprocess
import devices
import differences
import hostile
import parts
import progress
import shown
import vectors
from program import Counts
from runs import Program, stored


def main():
    parser = argparse.ArgumentParser(description=__doc__, formatter_class=argparse.RawDescriptionHelpFormatter)
    parser.add_argument('canon')
    parser.add_argument('runs', nargs='?')
    parser.add_argument('--limit', type=float, default=60)
    parser.add_argument('--show', type=int, default=10)
    options = parser.parse_args()
    program = Program(options.canon, options.limit)
    counts = Counts(options.show)
    for name, part in (
        ('cases', lambda: stored(program, counts)),
        ('parts of messages', lambda: parts.answered(program, counts)),
        ('vectors as streams', lambda: vectors.streams(program, counts)),
        ('devices', lambda: devices.failing(program, counts)),
        ('little memory', lambda: devices.scarce(program, counts)),
        ('memory for what came', lambda: devices.bounded(program, counts)),
        ('altered messages, shown', lambda: shown.runs(program, counts)),
        ('pairs of messages, compared', lambda: differences.runs(program, counts)),
        ('coprocesses', lambda: coprocess.answered(program, counts)),
        ('progress', lambda: progress.runs(program, counts)),
        ('hostile runs', lambda: hostile.runs(options.runs, counts)) if options.runs else ('altered streams', lambda: hostile.altered(program, counts)),
    ):
        before = counts.passed + counts.failed
        part()
        print(f'{name}: {counts.passed + counts.failed - before} runs', flush=True)
    print(f'{counts.passed} passed, {counts.failed} failed')
    return 1 if counts.failed else 0


sys.exit(main())
