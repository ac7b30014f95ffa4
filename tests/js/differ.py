"""differ.py <CASES: compares what differ.mjs printed with the answers of the native library, by the Python package. The last line
is `N passed, M failed`."""
import sys

import capnp_canonical as native


def said(call):
    try:
        return call()
    except native.Error as error:
        return f'!{error.name}' + (f'@{error.pointer[0]},{error.pointer[1]}' if error.pointer else '')


def unpacked(packed, words):
    found = []

    def frames():
        for it in native.packed_frames(packed, words):
            found.append(it.hex())
        return '.'

    end = said(frames)
    return ','.join([*found, end])


def main():
    passed = failed = refused = 0
    for line in sys.stdin:
        shown, nesting, limit, steps, *answers = line.rstrip('\n').split(' ')
        frame = b'' if shown == '-' else bytes.fromhex(shown)
        limits = native.Limits(int(nesting), int(limit))
        path = [] if steps == '-' else [int(it) for it in steps.split('.')]

        def check():
            fault = native.check(frame, limits)
            return 'yes' if fault is None else f'{int(fault.reason)},{fault.segment},{fault.word}'

        def size():
            found = native.size(frame, limits)
            return f'{found.words},{found.capabilities}'

        def extent():
            found = native.validate(frame, limits)
            return f'{found.depth},{found.words},{found.capabilities},{found.cost}'

        def counts(size_at, message):
            found = size_at(message, path, limits)
            return f'{found.words},{found.capabilities}'

        # what is behind the table of a frame of one segment
        words = frame[8:]
        segments = [words, frame]
        got = [
            said(lambda: native.copy(frame, limits).hex() or '-'), said(lambda: native.copy_flat(frame, limits).hex() or '-'), said(check), said(size),
            said(lambda: str(native.frame_size(frame, limits.words))), said(lambda: native.unpack(frame, 1000).hex() or '-'),
            said(extent), said(lambda: native.copy_flat_at(frame, path, limits).hex() or '-'), said(lambda: native.digest_at(frame, path, limits).hex()),
            said(lambda: counts(native.size_at, frame)),
            said(lambda: native.words_copy_at(words, path, limits).hex() or '-'), said(lambda: native.words_digest_at(words, path, limits).hex()),
            said(lambda: counts(native.words_size_at, words)),
            said(lambda: native.segments_copy_flat_at(segments, path, limits).hex() or '-'), said(lambda: native.segments_digest_at(segments, path, limits).hex()),
            said(lambda: counts(native.segments_size_at, segments)),
            said(lambda: native.digest(frame, limits).hex()), unpacked(frame, limits.words),
        ]
        passed += got == answers
        failed += got != answers
        refused += got[0][0] == '!'
        if got != answers and failed < 5:
            print(line[:300], got)
    print(f'the copy of {refused} is refused')
    print(f'{passed} passed, {failed} failed')
    return 1 if failed else 0


sys.exit(main())
