"""figures_of.py FILE CALL COUNT: the least time of a call in nanoseconds, of nine rounds with COUNT calls each. CALL is `words`,
`digest` or `hash`, which hashes the canonical words by hashlib."""
import hashlib
import pathlib
import sys
import time

import capnp_canonical

frame, count = pathlib.Path(sys.argv[1]).read_bytes(), int(sys.argv[3])
canonical = bytes(capnp_canonical.copy_flat(frame))
call = {
    'words': lambda: capnp_canonical.copy_flat(frame),
    'digest': lambda: capnp_canonical.digest(frame),
    'hash': lambda: hashlib.sha256(canonical).digest(),
}[sys.argv[2]]


def round_of_calls():
    start = time.perf_counter_ns()
    for _ in range(count):
        call()
    return (time.perf_counter_ns() - start) / count


print(f'{min(round_of_calls() for _ in range(9)):.1f}')
