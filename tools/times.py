"""Prints a table of the times and the memory of the program capnp_canon and of C++ Cap'n Proto.

    times.py [PROGRAM] [RUNS]

PROGRAM is `crates/capnp_canon/out/capnp_canon` if left out: the script at the top of the repository would add 13
milliseconds. The peer is a program that uses the C++ library, with buffers of the same size; for packed messages also the
command `capnp convert`. Times are processor seconds, the best of RUNS runs (5 if left out). Memory is the largest
resident size."""
import multiprocessing
import os
import pathlib
import subprocess
import sys

sys.path.append(str(pathlib.Path(__file__).resolve().parents[1] / 'tests/peer'))

from peer import BOOK, PERSON, TOP, Peer


def measured(words, path, folder, runs):
    """The processor seconds of the best run, and the largest resident size in MiB."""
    seconds, size = [], 0
    for _ in range(runs):
        with open(path, 'rb') as given, open(os.devnull, 'wb') as taken:
            run = subprocess.Popen(words, stdin=given, stdout=taken, cwd=folder, env={**os.environ, 'PWD': str(folder)})
            _, status, use = os.wait4(run.pid, 0)
        if os.waitstatus_to_exitcode(status) not in (0, 1):
            raise RuntimeError(f'{words} ended with status {os.waitstatus_to_exitcode(status)}')
        seconds.append(use.ru_utime + use.ru_stime)
        size = max(size, use.ru_maxrss >> 10)
    return min(seconds), size


def with_words_behind(data):
    """These frames of one segment, each with one word added after the value: a fault at the very end."""
    out, at = [], 0
    while at < len(data):
        count = int.from_bytes(data[at + 4:at + 8], 'little')
        out += bytes(4), (count + 1).to_bytes(4, 'little'), data[at + 8:at + 8 + 8 * count], bytes(8)
        at += 8 + 8 * count
    return b''.join(out)


def made(peer, words):
    """Writes a stream into the peer's folder in four forms: plain, canonical, canonical with a word after each value, packed."""
    data = peer.book(*words) if isinstance(words[0], str) else peer.people(*words)
    forms = {'plain': data, 'canonical': peer.copied(['canon'], data), 'packed': peer.copied(['copy', 'pack'], data)}
    forms['late'] = with_words_behind(forms['canonical'])
    for form, content in forms.items():
        (peer.folder / form).write_bytes(content)


def apart(work, *args):
    """Does this in a separate process, because the measuring process can't measure a size below its own."""
    process = multiprocessing.Process(target=work, args=args)
    process.start()
    process.join()
    if process.exitcode:
        raise RuntimeError(f'{work.__name__} ended with status {process.exitcode}')


def rows(name, of, converted):
    """What to measure on a stream: a title, our arguments, the peer's command, and the form of the stream that both read."""
    yield f'`canon`, {name}', ['canon'], ['./peer', 'canon'], 'plain'
    yield f'`canon`, {name} in canonical form', ['canon'], ['./peer', 'canon'], 'canonical'
    yield f'`canon`, {name} in canonical form with a word after it', ['canon'], ['./peer', 'canon'], 'late'
    yield f'`check`, {name}', ['check'], ['./peer', 'check'], 'plain'
    yield f'`check`, {name} in canonical form', ['check'], ['./peer', 'check'], 'canonical'
    yield f'`size`, {name}', ['size'], ['./peer', 'size'], 'plain'
    yield f'`canon --packed`, {name}', ['canon', '--packed'], ['./peer', 'canon', 'packed'], 'packed'
    yield f'`canon --pack`, {name}', ['canon', '--pack'], ['./peer', 'canon', 'pack'], 'plain'
    for ours, way, form in converted:
        yield f'`{" ".join(ours)}`, {name}, of `capnp convert {way}`', ours, ['capnp', 'convert', way, *of], form


FLAT = ['canon', '--flat'], 'binary:canonical', 'plain'
UNPACK_SMALL = ['canon', '--packed'], 'packed:canonical', 'packed'
UNPACK = ['canon', '--packed'], 'packed:binary', 'packed'
PACK = ['canon', '--pack'], 'binary:packed', 'plain'
# Each stream: its name, its type, the arguments to make it, and what to measure with `capnp convert`.
STREAMS = (
    ('small messages', PERSON, (9, 100_000, 0), (FLAT, UNPACK_SMALL, PACK)),
    ('a large one', BOOK, ('7100000',), (UNPACK, PACK)),
    ('one of data', BOOK, ('8388000', 'data'), (UNPACK, PACK)),
)


def main():
    program = os.path.abspath(sys.argv[1]) if sys.argv[1:] else str(TOP / 'crates/capnp_canon/out/capnp_canon')
    runs = int(sys.argv[2]) if sys.argv[2:] else 5
    print('| Work | Ours, s | C++, s | Ours of C++ | Memory, MiB |\n|---|---|---|---|---|')
    with Peer() as peer:
        for name, of, words, converted in STREAMS:
            apart(made, peer, words)
            name = f'{name} ({(peer.folder / "plain").stat().st_size / 1e6:.1f} MB)'
            for title, ours, theirs, form in rows(name, of, converted):
                path = peer.folder / form
                one, size = measured([program, *ours], path, peer.folder, runs)
                other, other_size = measured(theirs, path, peer.folder, runs)
                print(f'| {title} | {one:.3f} | {other:.3f} | {one / other:.2f} | {size}, {other_size} |', flush=True)


main()
