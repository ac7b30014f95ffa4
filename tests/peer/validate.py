"""Compares capnp_canonical_validate with C++ Cap'n Proto, which follows every pointer, on altered messages.

    validate.py [COUNT [SEED]]     COUNT altered messages, 1,000,000 by default
    validate.py times              how long both take

Builds the library from generated/, and validate.c++ over it. Prints how often each difference came up that
docs/DIFFERENCES.md names. The last line is `N passed, M failed`."""
import subprocess
import sys

from peer import COMPILER, HERE, TOP, Peer

SMALL, FAR = ((1, 40, 1), (2, 40, 0)), (300, 1)


def main(words):
    with Peer() as peer:
        peer.bytes_of('cc', '-std=c11', '-O2', f'-I{TOP}/bindings/c', '-c', '-o', 'library.o', str(TOP / 'generated/capnp_canonical.c'))
        peer.bytes_of(*COMPILER, f'-I{TOP}/bindings/c', '-o', 'validate', str(HERE / 'validate.c++'), 'library.o', '-lcapnp', '-lkj')
        if words == ['times']:
            for data in peer.people(3, 2000, 2), peer.scattered(peer.people(3, *FAR)):
                print(peer.bytes_of('./validate', 'times', data=data).decode(), end='')
            return 0
        corpus = [peer.people(*it) for it in SMALL]
        corpus += [peer.scattered(it) for it in corpus]
        output, status = peer.run(['./validate', *(words or ['1000000'])], b''.join(corpus))
        print(output.decode(), end='')
        return status


sys.exit(main(sys.argv[1:]))
