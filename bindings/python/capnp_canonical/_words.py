"""Raw words, which aren't a frame, and the bytes that calls write."""
from __future__ import annotations

import ctypes
from typing import TYPE_CHECKING, Any, Callable

if TYPE_CHECKING:
    from _typeshed import ReadableBuffer


class Words(bytes):
    """The words of a message without the table of a frame: what `copy_flat` and its like return, and what you make of
    stored words (`Words(stored)`). The calls that take a frame raise `TypeError` for them, because they could read another
    value: use the calls whose names begin with `words_`. Otherwise they are bytes; a part of them is of type `bytes`."""

    __slots__ = ()

    def __new__(cls, words: ReadableBuffer) -> Words:
        # a number or a list has no buffer
        with memoryview(words) as view:
            return super().__new__(cls, view)

    def frame(self) -> bytes:
        """The same message as a frame of one segment: these words after their table. Raises `ValueError` if they aren't
        whole words, or are 2^32 or more."""
        if len(self) % 8 or len(self) >> 35:
            raise ValueError(f"{len(self)} bytes can't be a segment of a frame")
        return bytes(4) + (len(self) // 8).to_bytes(4, 'little') + self


def must_be_no_words(given: Any) -> None:
    """Refuse raw words where a frame or packed bytes are wanted."""
    whole = given.obj if type(given) is memoryview and type(given.obj) is Words and given.nbytes == len(given.obj) else given
    if isinstance(whole, Words):
        raise TypeError("raw words aren't a frame: pass them to a call whose name begins with `words_`, or pass their `frame()`")


if not hasattr(ctypes, 'pythonapi'):
    raise ImportError('capnp_canonical needs CPython: this Python has no ctypes.pythonapi')
_api = ctypes.pythonapi
_made: Callable[..., Any] = _api.PyBytes_FromStringAndSize
_api.PyBytes_FromStringAndSize.argtypes = [ctypes.c_char_p, ctypes.c_ssize_t]
_api.PyBytes_FromStringAndSize.restype = ctypes.c_void_p
_resize: Callable[..., int] = _api._PyBytes_Resize
_api._PyBytes_Resize.argtypes = [ctypes.POINTER(ctypes.c_void_p), ctypes.c_ssize_t]
_release: Callable[..., None] = _api.Py_DecRef
_api.Py_DecRef.argtypes, _api.Py_DecRef.restype = [ctypes.c_void_p], None
# The offset of the bytes in an object of type `bytes`.
_START = bytes.__basicsize__ - 1


def words_of(made: bytes) -> Words:
    """The bytes that a call has written, with the type of raw words."""
    return bytes.__new__(Words, made)


class Small:
    """Like `Room`, for a few KB, which are copied faster."""

    __slots__ = 'address', 'size'

    def __init__(self, size: int) -> None:
        self.address, self.size = ctypes.create_string_buffer(size), size

    def take(self, size: int) -> bytes:
        return ctypes.string_at(self.address, size)


class Room:
    """Memory of `size` bytes that a call writes to, and that becomes an object of type `bytes` in place. Nothing else knows
    the object before `take` returns it."""

    __slots__ = '_object', 'address', 'size'

    def __init__(self, size: int) -> None:
        self._object = ctypes.c_void_p()
        self._object.value = _made(None, size)
        self.address: int = (self._object.value or 0) + _START
        self.size = size

    def take(self, size: int) -> bytes:
        """The object of the first `size` bytes."""
        if size != self.size:
            _resize(ctypes.byref(self._object), size)
        found: bytes = ctypes.cast(self._object, ctypes.py_object).value
        return found

    def __del__(self) -> None:
        if self._object.value:
            _release(self._object)
