"""Reads framed messages from standard input, and writes the canonical words of each to standard output."""
import sys

import capnp_canonical

try:
    for number, frame in enumerate(capnp_canonical.frames(sys.stdin.buffer), 1):
        sys.stdout.buffer.write(capnp_canonical.copy_flat(frame))
except capnp_canonical.Error as error:
    sys.exit(str(error) if error.place else f'message {number}: {error}')
