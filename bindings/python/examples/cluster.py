"""Names each message of a data set by a hash, and finds equal ones, on a Dask cluster.

    cluster.py [--scheduler ADDRESS | --workers N] [--piece BYTES] digest FILE..
    cluster.py [--scheduler ADDRESS | --workers N] [--piece BYTES] duplicates FILE..

Without an address it starts N processes on this machine. The output is that of `python3 -m capnp_canonical` with the
same command and files, whatever the number of processes. If some of them die, their tasks run again. The workers need
the package, and read the files by the same names.

A task is a piece of a file: whole messages of at least BYTES bytes. Several tasks look for equal messages at once, each
among the hashes with certain first bytes, so that no process has to hold all of them.
"""
import argparse
import itertools
import mmap
import os
import struct
import sys
import time
from dataclasses import dataclass, field
from operator import itemgetter
from typing import Callable, Dict, Iterator, List, Optional, Tuple

from distributed import Client, Future, LocalCluster

from capnp_canonical import Error, frames
from capnp_canonical import digest as digest_of

PIECE = 16 << 20

# A message as bytes: its digest, the number of its file, and its number in the file.
RECORD = '>32sIQ'

# A message: the number of its file, and its number in the file.
Place = Tuple[int, int]


@dataclass
class Piece:
    """A piece of a file: its bytes, and the number of its first message."""

    file: int
    start: int
    end: int
    first: int


@dataclass
class Counts:
    """How many messages a piece has, and why some of them have no name."""

    refused: List[str]
    messages: int
    bytes: int


def mapped(name: str) -> memoryview:
    """The bytes of a file, mapped into memory. The mapping ends with the last view of it."""
    with open(name, 'rb') as file:
        if os.fstat(file.fileno()).st_size == 0:
            return memoryview(b'')
        return memoryview(mmap.mmap(file.fileno(), 0, access=mmap.ACCESS_READ))


def pieces_of(name: str, file: int, size: int) -> Tuple[List[Piece], Optional[str]]:
    """The pieces of a file, each of at least `size` bytes; and why not all of it is messages. Reads only frame
    tables."""
    pieces: List[Piece] = []
    start = at = 0
    first = number = 1
    refused = None
    try:
        for frame in frames(mapped(name)):
            at += len(frame)
            number += 1
            if at - start >= size:
                pieces.append(Piece(file, start, at, first))
                start, first = at, number
    except Error as error:
        refused = f'{name}: {error}'
    except OSError as error:
        refused = f'{name}: {error.strerror}'
    if at > start:
        pieces.append(Piece(file, start, at, first))
    return pieces, refused


def names_in(name: str, piece: Piece, buckets: int) -> Tuple[List[bytes], Counts]:
    """The records of the messages of a piece, in buckets by the first bytes of their digests; and the counts. Records
    are bytes because Dask moves those quickly between processes, and knows their size."""
    records = [bytearray() for _ in range(buckets)]
    counts = Counts([], 0, piece.end - piece.start)
    at = piece.start
    for number, frame in enumerate(frames(mapped(name)[piece.start:piece.end]), piece.first):
        try:
            digest = digest_of(frame)
            records[(digest[0] << 8 | digest[1]) * buckets >> 16] += struct.pack(RECORD, digest, piece.file, number)
        except Error as error:
            counts.refused.append(f'{name}: {error.at(number, at)}')
        counts.messages += 1
        at += len(frame)
    return [bytes(it) for it in records], counts


def records_in(parts: List[bytes]) -> Iterator[Tuple[bytes, int, int]]:
    return itertools.chain.from_iterable(struct.iter_unpack(RECORD, part) for part in parts)


def bucket_of(names: Tuple[List[bytes], Counts], bucket: int) -> bytes:
    return names[0][bucket]


def equal_in(parts: List[bytes]) -> List[Tuple[bytes, List[Place]]]:
    """The messages that share a name with another one."""
    groups: Dict[bytes, List[Place]] = {}
    for digest, file, number in records_in(parts):
        groups.setdefault(digest, []).append((file, number))
    return [(digest, sorted(places)) for digest, places in groups.items() if len(places) > 1]


@dataclass
class Work:
    """A run on a cluster: what it found, in the order of the files, and what was refused."""

    client: Client
    files: List[str]
    size: int = PIECE
    buckets: int = 1
    # called after each task with how many of how many are done
    seen: Callable[[int, int], None] = lambda done, of: None
    refused: List[str] = field(default_factory=list)
    messages: int = 0
    bytes: int = 0

    def _tasks(self) -> List[Future]:
        """A task for each piece of each file. Tasks also cut the files."""
        cut = [self.client.submit(pieces_of, name, file, self.size, pure=False) for file, name in enumerate(self.files)]
        tasks = []
        for name, (pieces, refused) in zip(self.files, map(Future.result, cut)):
            tasks += [self.client.submit(names_in, name, piece, self.buckets, pure=False) for piece in pieces]
            self.refused += [refused] if refused else []
        return tasks

    def _count(self, counts: Counts) -> None:
        self.refused += counts.refused
        self.messages += counts.messages
        self.bytes += counts.bytes

    def digest(self):
        """The name and the place of each message."""
        tasks = self._tasks()
        for done, task in enumerate(tasks, 1):
            buckets, counts = task.result()
            self._count(counts)
            self.seen(done, len(tasks))
            yield from sorted(((file, number), digest) for digest, file, number in records_in(buckets))

    def duplicates(self) -> List[Tuple[bytes, List[Place]]]:
        """The groups of equal messages, in the order of their first ones."""
        tasks = self._tasks()
        groups = [
            self.client.submit(equal_in, [self.client.submit(bucket_of, task, bucket, pure=False) for task in tasks], pure=False)
            for bucket in range(self.buckets)
        ]
        counts = [self.client.submit(itemgetter(1), task, pure=False) for task in tasks]
        for done, task in enumerate(counts, 1):
            self._count(task.result())
            self.seen(done, len(tasks))
        return sorted((group for task in groups for group in task.result()), key=lambda it: it[1])


def write(work: Work, command: str) -> int:
    """Print what a command finds, and return the exit status."""
    found = 0
    if command == 'digest':
        for (file, number), digest in work.digest():
            print(f'{digest.hex()}  {work.files[file]}:{number}')
    else:
        for digest, places in work.duplicates():
            print(end='\n' if found else '')
            found = 1
            for file, number in places:
                print(f'{digest.hex()}  {work.files[file]}:{number}')
    sys.stdout.flush()
    for refused in work.refused:
        print(f'cluster: {refused}', file=sys.stderr)
    return 2 if work.refused else found


def show(done: int, of: int) -> None:
    """Show progress if standard error is a terminal."""
    if sys.stderr.isatty():
        sys.stderr.write(f'\r\033[Kcluster: {done} of {of} tasks' if done < of else '\r\033[K')
        sys.stderr.flush()


def main() -> int:
    parser = argparse.ArgumentParser(description=__doc__.splitlines()[0])
    parser.add_argument('--scheduler', metavar='ADDRESS', help='the address of a running cluster')
    parser.add_argument('--workers', metavar='N', type=int, default=os.cpu_count(), help='how many processes to start (%(default)s)')
    parser.add_argument('--piece', metavar='BYTES', type=int, default=PIECE, help='the least size of a task (%(default)s)')
    parser.add_argument('command', choices=['digest', 'duplicates'])
    parser.add_argument('files', metavar='FILE', nargs='+')
    given = parser.parse_args()
    local = dict(n_workers=given.workers, threads_per_worker=1, processes=True, dashboard_address=':0')
    cluster = given.scheduler or LocalCluster(**local)
    with Client(cluster) as client:
        count = len(client.scheduler_info()['workers'])
        start = time.monotonic()
        work = Work(client, given.files, given.piece, max(count, 1), show)
        status = write(work, given.command)
        took = time.monotonic() - start
        print(f'cluster: {work.messages:,} messages, {work.bytes / 1e6:,.1f} MB in {took:.1f} s with {count} workers: '
              f'{work.messages / took:,.0f} messages a second', file=sys.stderr)
    if not given.scheduler:
        cluster.close()
    return status


if __name__ == '__main__':
    sys.exit(main())
