"""Runs capnp_canon with `--at` on the rows of tests/library/rows/parts.txt, whose answers come from C++ Cap'n Proto: each path in a
frame, in two frames, and in packed bytes; each index with and without brackets."""
import pathlib

from packing import packed
from runs import same

ROWS = pathlib.Path(__file__).resolve().parents[1] / 'library/rows/parts.txt'


def rows():
    """Each row with a path: its name, frame and indexes, the name of its answer, and its words and digest in hex digits."""
    for line in ROWS.read_text(encoding='utf-8').splitlines():
        if line.startswith('#'):
            continue
        name, frame, path, answer, flat, digest = line.split()
        if path != '-':
            yield name, bytes.fromhex(frame), path.split('.')[:-1], answer, flat, digest


def wanted(answer, output, before=b'', number=1, byte=0):
    """How a run ends that answers a message, or refuses it."""
    if answer == 'Done':
        return before + output, 0, ''
    return before, 2, f'capnp_canon: message {number} at byte {byte}: refused {answer}\n'


def answered(program, counts):
    for name, frame, indexes, answer, flat, digest in rows():
        words = b'' if flat == '-' else bytes.fromhex(flat)
        for path in ('.'.join(indexes), '.'.join(f'[{it}]' for it in indexes)):
            flat_args, hash_args = ['canon', '--flat', '--at', path], ['digest', f'--at={path}']
            cases = (
                (flat_args, frame, wanted(answer, words)),
                ([*flat_args, '--packed'], packed(frame), wanted(answer, words)),
                (hash_args, frame, wanted(answer, f'{digest}  -:1\n'.encode())),
            )
            if answer == 'Done':
                cases += ((flat_args, frame + frame, wanted(answer, words + words)),)
            for args, data, want in cases:
                same(counts, f'{name} {args}', args, want, program.run(args, data))
