#!/usr/bin/env python3
"""Makes runs under hostile conditions, and prints what goes wrong.

    run.py LAYOUT_RUNS LAYOUT_ROWS [--show N]

LAYOUT_RUNS and LAYOUT_ROWS are the built programs of these names. The runs are of these kinds:

- Each message of the worked vectors and of messages.txt, and each frame, is cut short after every byte and has every bit
  flipped. The reader, the writer and the allocator of a run fail at each call in turn.
- The lists of edits and of builder calls of tests/cases run again with segments refused: all of them, then all but the
  first, and so on until none is refused. They also run with the first segment in scratch space.
- With little memory, the segments of a message are requested, written as a frame and read back, and a message is audited.

The script for each kind says what it expects. trees.py reads values back, and frames.py frames, independently of the
crates."""
import argparse
import pathlib
import sys

import altered
import growth
import scarce
from program import Counts

TESTS = pathlib.Path(__file__).resolve().parents[1]


def main():
    parser = argparse.ArgumentParser(description=__doc__, formatter_class=argparse.RawDescriptionHelpFormatter)
    parser.add_argument('runs')
    parser.add_argument('rows')
    parser.add_argument('--show', type=int, default=10)
    options = parser.parse_args()
    vectors = list(altered.worked(TESTS / 'vectors/worked.jsonl'))
    others = list(altered.listed(TESTS / 'hostile/messages.txt'))
    left_out = {}
    edits = growth.lists(sorted((TESTS / 'cases').glob('edits*.jsonl')), left_out)
    builds = growth.builder_calls(sorted((TESTS / 'cases').glob('builds*.jsonl')), left_out)
    total = Counts(options.show)
    for name, part in (
        ('altered messages', lambda: altered.altered([options.runs], vectors, others, total)),
        ('messages framed', lambda: altered.reframed([options.runs], vectors, total)),
        ('altered frames', lambda: altered.unframed([options.runs], vectors, total)),
        ('devices and memory that fail', lambda: altered.failing([options.runs], vectors, total)),
        ('edits with segments refused', lambda: growth.edited([options.rows], edits, total)),
        ('edits and builder calls in scratch space', lambda: growth.in_scratch([options.rows], edits, builds, total)),
        ('edits in scratch space only', lambda: growth.alone([options.rows], total)),
        ('levels', lambda: growth.deep([options.rows], total)),
        ('builder calls with segments refused', lambda: growth.built([options.rows], builds, total)),
        ('segments requested with little memory', lambda: scarce.output([options.runs], [options.rows], total)),
        ('segments written as a frame and read back', lambda: scarce.written([options.runs], total)),
        ('audits with little memory', lambda: scarce.audits([options.rows], total)),
    ):
        before = total.passed + total.failed
        part()
        print(f'{name}: {total.passed + total.failed - before} runs')
    print(f'left out: {len(left_out)} cases that request objects of {growth.MANY} elements or more')
    print(f'{total.passed} passed, {total.failed} failed')
    return 1 if total.failed else 0


sys.exit(main())
