"""A program over the package for Python, for a checker of types; it isn't run."""
import array
import asyncio
import io
import mmap
from typing import AsyncIterator, Iterator, List, Optional, Tuple

import capnp_canonical
from capnp_canonical import Error, Extent, Fault, Limits, Refusal, Size, Walk, Words


class Person:
    """What a struct of pycapnp looks like to a checker."""

    def as_builder(self, num_first_segment_words: Optional[int] = None) -> 'PersonBuilder':
        return PersonBuilder()


class PersonBuilder:
    def as_reader(self) -> Person:
        return Person()

    def to_bytes(self) -> bytes:
        return b''


def of_frames(frame: bytes) -> Tuple[Words, bytes, str, Size, Extent, Optional[Fault], bool, Walk]:
    limits = Limits(nesting=7, words=1000)
    words: Words = capnp_canonical.copy_flat(frame, limits)
    stored: bytes = words
    part: Words = capnp_canonical.copy_flat_at(frame, [0], words=9)
    again: Words = Words(bytearray(stored) + part)
    digest: bytes = capnp_canonical.words_digest(again, nesting=9)
    copy: bytes = capnp_canonical.copy(again.frame(), nesting=9, words=9)
    buffers = capnp_canonical.digest(bytearray(frame)) + capnp_canonical.digest(memoryview(frame)) + capnp_canonical.digest(array.array('B', frame))
    return (
        words, digest + copy + buffers, capnp_canonical.hexdigest(frame, limits), capnp_canonical.size(frame), capnp_canonical.validate(frame),
        capnp_canonical.check(frame), capnp_canonical.equal(frame, words.frame(), words=9), capnp_canonical.walk(frame, 9, words=9),
    )


def of_pycapnp(person: Person, builder: PersonBuilder) -> str:
    return capnp_canonical.hexdigest(person) + capnp_canonical.hexdigest_at(builder, [0]) + capnp_canonical.copy_flat(person).hex()


def of_streams(file: io.BufferedReader, mapped: mmap.mmap) -> Iterator[memoryview]:
    yield from capnp_canonical.frames(file, words=9)
    yield from capnp_canonical.frames(mapped)
    yield from capnp_canonical.packed_frames(file)


async def of_asyncio(reader: asyncio.StreamReader, pieces: AsyncIterator[bytes]) -> List[str]:
    found = [capnp_canonical.hexdigest(it) async for it in capnp_canonical.async_frames(reader)]
    async for frame in capnp_canonical.async_packed_frames(pieces, words=9):
        found.append(frame.hex())
    return found


def refused(frame: bytes) -> str:
    try:
        return capnp_canonical.hexdigest(frame)
    except capnp_canonical.OverLimitError as error:
        return f'{error.name} {error.place} {error.pointer}'
    except capnp_canonical.OutOfMemoryError as error:
        memory: MemoryError = error
        return str(memory)
    except Error as error:
        return str(error.at(1, 0)) if error.number == Refusal.TRUNCATED else error.name
