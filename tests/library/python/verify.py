#!/usr/bin/env python3
"""Verifies what sign.cpp has signed, without a schema and without another library.

    verify.py KEY FILE

The message is a struct whose first pointer leads to the payload, and whose second one leads to the signature, which is
data. Prints `verified` or `not verified`."""
import hashlib
import hmac
import pathlib
import sys

import capnp_canonical


def data_of(words):
    """The bytes of a list of bytes, from its canonical words: a list pointer, and the bytes."""
    count = int.from_bytes(words[4:8], 'little') >> 3
    return words[8:8 + count]


def main():
    key, file = sys.argv[1:]
    frame = pathlib.Path(file).read_bytes()
    signature = data_of(capnp_canonical.copy_flat_at(frame, [1]))
    wanted = hmac.new(key.encode(), capnp_canonical.copy_flat_at(frame, [0]), hashlib.sha256).digest()
    is_same = hmac.compare_digest(signature, wanted)
    print('verified' if is_same else 'not verified')
    return 0 if is_same else 1


sys.exit(main())
