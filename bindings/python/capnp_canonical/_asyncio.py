"""The frames of a stream that `async for` or `await` goes through."""
from __future__ import annotations

from typing import TYPE_CHECKING, Any, AsyncIterable, AsyncIterator, Awaitable, Protocol, Union

from capnp_canonical._answers import Limits
from capnp_canonical._calls import LIMITS
from capnp_canonical._frames import PIECE, Framed
from capnp_canonical._packed import Packed

if TYPE_CHECKING:
    from _typeshed import ReadableBuffer


class AsyncReadable(Protocol):
    def read(self, size: int, /) -> Awaitable[bytes]:
        ...


if TYPE_CHECKING:
    AsyncPieces = Union[AsyncReadable, AsyncIterable[ReadableBuffer]]


def async_frames(stream: AsyncPieces, words: int = LIMITS.words) -> AsyncIterator[memoryview]:
    """Like `frames`, for `async for`. The stream is an `asyncio.StreamReader`, or anything else whose method `read` is
    awaited for bytes, none of them at the end; or anything that `async for` gets bytes from. A frame is yielded as soon
    as it is there, as a view of bytes of its own."""
    return _frames(stream, Limits(words=words).words)


def async_packed_frames(stream: AsyncPieces, words: int = LIMITS.words) -> AsyncIterator[memoryview]:
    """Like `packed_frames`, for `async for`. The stream is what `async_frames` takes."""
    return _packed_frames(stream, Limits(words=words).words)


async def _pieces(stream: Any) -> AsyncIterator[bytes]:
    """The bytes of a stream, piece by piece, none of them empty."""
    if hasattr(stream, 'read'):
        while True:
            piece = await stream.read(PIECE)
            if not piece:
                return
            yield _bytes_of(piece)
    async for piece in stream:
        if len(piece):
            yield _bytes_of(piece)


def _bytes_of(piece: Any) -> bytes:
    """A piece; a copy of it, if it could be changed before its frame is whole."""
    if isinstance(piece, str):
        raise TypeError('the stream is one of text: frames are bytes')
    return piece if type(piece) is bytes else memoryview(piece).tobytes()


async def _frames(stream: Any, words: int) -> AsyncIterator[memoryview]:
    framed = Framed(words)
    async for piece in _pieces(stream):
        for frame in framed.frames(piece):
            yield frame
    for frame in framed.frames(b''):
        yield frame


async def _packed_frames(stream: Any, words: int) -> AsyncIterator[memoryview]:
    packed = Packed(words)
    async for piece in _pieces(stream):
        for frame in packed.frames(piece):
            yield frame
    packed.end()
