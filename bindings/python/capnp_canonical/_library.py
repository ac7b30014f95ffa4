"""The library, with the types of its calls, and the buffers that are lent to it."""
from __future__ import annotations

import ctypes
import os
import sys
from types import TracebackType
from typing import TYPE_CHECKING, Any, Callable, Optional, Type, Union

from capnp_canonical._words import Words

if TYPE_CHECKING:
    from _typeshed import ReadableBuffer, WriteableBuffer

TEXT_ROOM = 96
_VARIABLE = 'CAPNP_CANONICAL_LIBRARY'
# By the system: what the library's file may be named, and what the system's loader looks for.
_FILES = {
    'darwin': (('libcapnp_canonical.dylib', 'libcapnp_canonical.so'), 'libcapnp_canonical.1.dylib'),
    'win32': (('capnp_canonical.dll', 'libcapnp_canonical.dll'), 'capnp_canonical.dll'),
}
_NAMES, _SONAME = _FILES.get(sys.platform, (('libcapnp_canonical.so',), 'libcapnp_canonical.so.1'))
_FILE = _NAMES[0]
# The versions of the library that have all calls of this package: from the first on, and before the second.
_OLDEST, _NEXT = 10100, 20000


class RawFault(ctypes.Structure):
    _fields_ = [('reason', ctypes.c_uint32), ('word', ctypes.c_uint32), ('segment', ctypes.c_uint64)]


class RawExtent(ctypes.Structure):
    _fields_ = [
        ('words', ctypes.c_uint64), ('capabilities', ctypes.c_uint64), ('cost', ctypes.c_uint64),
        ('depth', ctypes.c_uint32),
    ]


class RawUnpacking(ctypes.Structure):
    _fields_ = [
        ('zeros', ctypes.c_uint16), ('left', ctypes.c_uint16), ('place', ctypes.c_uint8), ('bits', ctypes.c_uint8),
    ]


class RawPointer(ctypes.Structure):
    _fields_ = [('refusal', ctypes.c_uint32), ('word', ctypes.c_uint32), ('segment', ctypes.c_uint64)]


class RawObject(ctypes.Structure):
    _fields_ = [
        ('parent', ctypes.c_uint64), ('pointer_segment', ctypes.c_uint64), ('segment', ctypes.c_uint64),
        ('pointer_word', ctypes.c_uint32), ('word', ctypes.c_uint32), ('kind', ctypes.c_uint32),
        ('count', ctypes.c_uint32), ('capability', ctypes.c_uint32), ('data_words', ctypes.c_uint16),
        ('pointers', ctypes.c_uint16),
    ]


class RawSegment(ctypes.Structure):
    _fields_ = [('bytes', ctypes.c_void_p), ('size', ctypes.c_size_t)]


class _View(ctypes.Structure):
    """Py_buffer of CPython."""

    _fields_ = [
        ('buf', ctypes.c_void_p), ('obj', ctypes.c_void_p), ('len', ctypes.c_ssize_t), ('itemsize', ctypes.c_ssize_t),
        ('readonly', ctypes.c_int), ('ndim', ctypes.c_int), ('format', ctypes.c_void_p), ('shape', ctypes.c_void_p),
        ('strides', ctypes.c_void_p), ('suboffsets', ctypes.c_void_p), ('internal', ctypes.c_void_p),
    ]


_SIMPLE, _WRITABLE = 0, 1
_get_buffer: Callable[..., int] = ctypes.pythonapi.PyObject_GetBuffer
ctypes.pythonapi.PyObject_GetBuffer.argtypes = [ctypes.py_object, ctypes.POINTER(_View), ctypes.c_int]
ctypes.pythonapi.PyBuffer_Release.argtypes = [ctypes.POINTER(_View)]
ctypes.pythonapi.PyBuffer_Release.restype = None


# The types whose bytes nothing can change.
_CONSTANT = bytes, Words
# ctypes.string_at takes no larger number.
_MOST_AT_ONCE = 2**31 - 1


class Lent:
    """The bytes of an object, which stay in place while the `with` block runs. If `is_constant`, nothing can change them:
    they are those of an object of type `bytes` or `Words`. The bytes of any other object could be changed while the library reads
    them, by another thread, by another process or through another object, even if it is read-only itself."""

    __slots__ = '_view', 'address', 'size', 'is_constant'

    def __init__(self, given: Union[ReadableBuffer, WriteableBuffer], writable: bool = False) -> None:
        self._view = _View()
        self.is_constant = type(given.obj if isinstance(given, memoryview) else given) in _CONSTANT
        try:
            _get_buffer(given, self._view, _WRITABLE if writable else _SIMPLE)
        except BufferError:
            if writable:
                raise
            # bytes that aren't contiguous
            _get_buffer(memoryview(given).tobytes(), self._view, _SIMPLE)
            self.is_constant = True
        self.address: int = self._view.buf or 0
        self.size: int = self._view.len

    def copy(self, size: int, at: int = 0) -> bytes:
        """The `size` bytes from byte `at` on: what they are now."""
        if size > _MOST_AT_ONCE:
            return (ctypes.c_char * size).from_address(self.address + at).raw
        return ctypes.string_at(self.address + at, size)

    def constant(self) -> Lent:
        """The same bytes where nothing can change them: here, or else in a copy, after which these are given back."""
        if self.is_constant:
            return self
        with self:
            return Lent(self.copy(self.size))

    def release(self) -> None:
        ctypes.pythonapi.PyBuffer_Release(self._view)

    # a second time it does nothing
    __del__ = release

    def __enter__(self) -> Lent:
        return self

    def __exit__(
        self, kind: Optional[Type[BaseException]], error: Optional[BaseException], trace: Optional[TracebackType]
    ) -> None:
        self.release()


def version_text(number: int) -> str:
    """A version as text, such as `1.1.0`."""
    return f'{number // 10000}.{number // 100 % 100}.{number % 100}'


def _must_fit(library: ctypes.CDLL) -> None:
    """Refuse a library that lacks calls, or has other ones."""
    wanted = f'{version_text(_OLDEST)} or a later version {_OLDEST // 10000}'
    try:
        number = library.capnp_canonical_version()
    except AttributeError:
        number = 0
    if not _OLDEST <= number < _NEXT:
        found = f'has version {version_text(number)}' if number else 'is another library'
        raise ImportError(f'{library._name} {found}: capnp_canonical needs {wanted}; set {_VARIABLE} to the path of {_FILE}')


def _load() -> ctypes.CDLL:
    """The library, with the types of its calls."""
    named = os.environ.get(_VARIABLE)
    folder = os.path.dirname(os.path.abspath(__file__))
    around = os.path.dirname(folder)
    folders = folder, around, os.path.join(os.path.dirname(around), 'lib')
    beside = [os.path.join(it, name) for it in folders for name in _NAMES]
    try:
        library = ctypes.CDLL(named or next((it for it in beside if os.path.exists(it)), _SONAME))
    except OSError as error:
        raise ImportError(f'{error}; set {_VARIABLE} to the path of {_FILE}') from error
    _must_fit(library)
    size, pointer, u32, u64, at = ctypes.c_size_t, ctypes.POINTER, ctypes.c_uint32, ctypes.c_uint64, ctypes.c_void_p
    limits: Any = [ctypes.c_int32, u64]
    calls: Any = (
        ('copy', [at, size, pointer(size)]),
        ('copy_flat', [at, size, pointer(size)]),
        ('digest', [ctypes.c_char_p]),
        ('check', [pointer(ctypes.c_bool), pointer(RawFault)]),
        ('size', [pointer(u64), pointer(u32)]),
        ('validate', [pointer(RawExtent)]),
        ('locate', [u32, pointer(RawPointer)]),
        ('walk', [pointer(RawObject), size, pointer(size)]),
    )
    messages: Any = ('', at), ('segments_', pointer(RawSegment))
    parts = 'copy_flat', 'digest', 'size'
    for message, first in messages:
        for call, outputs in calls:
            function = getattr(library, f'capnp_canonical_{message}{call}')
            function.argtypes, function.restype = [first, size, *limits, *outputs], u32
            if call in parts:
                function = getattr(library, f'capnp_canonical_{message}{call}_at')
                function.argtypes, function.restype = [first, size, pointer(u32), size, *limits, *outputs], u32
        function = getattr(library, f'capnp_canonical_{message}digest_with')
        function.argtypes, function.restype = [at, size, first, size, *limits, ctypes.c_char_p], u32
        function = getattr(library, f'capnp_canonical_{message}digest_with_at')
        function.argtypes, function.restype = [at, size, first, size, pointer(u32), size, *limits, ctypes.c_char_p], u32
        function = getattr(library, f'capnp_canonical_{message}equal')
        function.argtypes, function.restype = [first, size, first, size, *limits, pointer(ctypes.c_bool)], u32
    others: Any = (
        ('frame_size', [at, size, u64, pointer(size)], u32),
        ('frame_size_from_prefix', [ctypes.c_char_p, size, u64, pointer(size)], u32),
        ('name', [u32, ctypes.c_char_p, size], size),
        ('reason_text', [u32, ctypes.c_char_p, size], size),
        ('pack', [at, size, at, size, pointer(size)], u32),
        ('unpack', [at, size, at, size, pointer(size)], u32),
        ('unpack_piece', [pointer(RawUnpacking), at, size, at, size, pointer(size)], size),
        ('version', [], u32),
    )
    for call, arguments, result in others:
        function = getattr(library, f'capnp_canonical_{call}')
        function.argtypes, function.restype = arguments, result
    return library


def text_of(call: Callable[..., int], number: int) -> str:
    """The text that a call writes for a number."""
    to = ctypes.create_string_buffer(TEXT_ROOM)
    call(number, to, TEXT_ROOM)
    return to.value.decode()


def version() -> int:
    """The version of the library: major * 10000 + minor * 100 + patch."""
    number: int = library.capnp_canonical_version()
    return number


library = _load()
# The same library, for a call so short that it isn't worthwhile to let other threads run.
_at_once = ctypes.PyDLL(library._name)
frame_size = _at_once.capnp_canonical_frame_size
frame_size.argtypes, frame_size.restype = library.capnp_canonical_frame_size.argtypes, ctypes.c_uint32
