"""What the calls take and return."""
from __future__ import annotations

import enum
from dataclasses import dataclass
from operator import index
from typing import Dict, List, Optional, Tuple, Type, Union

from capnp_canonical._library import library, text_of


MAX_NESTING = 1024
"""The largest nesting limit that counts: 1,024 levels take 0.8 MB of stack, and more would end the process."""


@dataclass(frozen=True)
class Limits:
    """The limits for reading a message. The defaults are those of C++ and Rust."""

    nesting: int = 64
    """How deep structs and lists may be nested, and therefore how much stack a call takes; below 2^31. A number above
    `MAX_NESTING` counts as that one."""
    words: int = 8_388_608
    """How many words of 8 bytes may be read, and how many a frame may have; below 2^64."""

    def __post_init__(self) -> None:
        for name, number in ('nesting', self.nesting), ('words', self.words):
            try:
                index(number)
            except TypeError:
                raise TypeError(f'{name} is a number, and not {number!r}; no limit is the largest one') from None
        if not -2**31 <= index(self.nesting) < 2**31:
            raise ValueError(f'a nesting limit of {self.nesting}')
        if not 0 <= index(self.words) < 2**64:
            raise ValueError(f'a limit of {self.words} words')


class Refusal(enum.IntEnum):
    """The numbers of `enum capnp_canonical_answer`. 57, 58 and 60 all mean that the message is nested too deeply: treat
    them alike. A later library may return further ones."""

    NO_ROOM = 1
    NO_MESSAGE = 2
    SEGMENT_IS_NOT_WHOLE_WORDS = 3
    TOO_MANY_SEGMENTS = 17
    MESSAGE_TOO_LONG = 18
    TRUNCATED = 19
    ALLOCATION_FAILED = 32
    CANNOT_CREATE_A_CANONICAL_MESSAGE_WITH_A_CAPABILITY = 33
    CANT_HANDLE_NON_STRUCT_INLINE_COMPOSITE = 34
    INLINE_COMPOSITE_LISTS_ELEMENTS_OVERRUN_ITS_WORD_COUNT = 42
    INLINE_COMPOSITE_LISTS_OF_NON_STRUCT_TYPE_ARE_NOT_SUPPORTED = 43
    INVALID_SEGMENT_ID = 44
    MALFORMED_DOUBLE_FAR_POINTER = 45
    MESSAGE_CONTAINS_OUT_OF_BOUNDS_POINTER = 55
    MESSAGE_IS_TOO_DEEPLY_NESTED = 57
    MESSAGE_IS_TOO_DEEPLY_NESTED_OR_CONTAINS_CYCLES = 58
    MESSAGE_TOO_LARGE = 59
    NESTING_LIMIT_EXCEEDED = 60
    NO_SUCH_PLACE = 61
    READ_LIMIT_EXCEEDED = 62
    UNKNOWN_POINTER_TYPE = 66


_TEXTS = {
    1: 'the buffer is too small',
    2: 'there are no bytes where a frame was expected',
    3: "the size of a segment isn't a multiple of 8 bytes",
    17: 'the frame has more than 512 segments',
    18: 'the frame or the unpacked bytes have more words than the limit',
    19: 'the bytes end inside a frame or a packed word',
    32: 'memory ran out',
    33: 'the value contains a capability, so it has no canonical form',
    34: "the tag of a list of structs isn't a struct pointer",
    42: 'the elements of a list of structs take more words than its pointer claims',
    43: "the tag of a list of structs isn't a struct pointer",
    44: "a far pointer names a segment that doesn't exist, or there are no segments",
    45: 'a one-word landing pad, or the tag of a two-word landing pad, is itself a far pointer',
    55: 'a pointer points outside its segment',
    57: 'the nesting limit is exceeded',
    58: 'the nesting limit is exceeded, perhaps by a cycle of pointers',
    59: 'the message or its canonical form is larger than the format allows',
    60: 'the nesting limit is exceeded',
    61: 'the path leads nowhere',
    62: 'the traversal limit is exceeded',
    66: 'a pointer is of an unknown kind',
}


class Reason(enum.IntEnum):
    """The numbers of `enum capnp_canonical_reason`. A later library may return further ones."""

    SEGMENT_COUNT = 1
    NO_POINTER = 2
    FAR_POINTER = 3
    CAPABILITY = 4
    UNKNOWN_POINTER = 5
    EMPTY_STRUCT_PLACE = 6
    OBJECT_PLACE = 7
    PADDING = 8
    DATA_SECTION = 9
    POINTER_SECTION = 10
    ELEMENT_WORDS = 11
    ELEMENT_DATA = 12
    ELEMENT_POINTERS = 13
    WORDS_BEHIND = 14


class Error(ValueError):
    """A call was refused. `str` gives a sentence, such as
    `message 2 at byte 40: Truncated: the bytes end inside a frame or a packed word`. Each refusal is of one of the
    subclasses, if the package knows its number; `Error(number)` makes one of them."""

    number: int
    """A `Refusal`, or an int if that doesn't have the number."""
    name: str
    """The name, such as `Truncated`; empty if the number has none."""
    place: Optional[Tuple[int, int]]
    """In a stream, the number of the message, counted from 1, and the byte where it starts; else None."""
    looks_like: Optional[str]
    """If the bytes aren't a frame, a guess at what they look like, such as `gzip`; None if there is no guess."""
    wanted: int
    """How many bytes are needed, if the room is too small, or if `frame_size` gets a part of a frame; else 0."""
    pointer: Optional[Tuple[int, int]]
    """The pointer at which the message is broken: the number of its segment, and its position there in words. None if the
    bytes aren't a frame or whole words, or if there is no room or no memory, or the message is too large; and None from the
    calls for a part."""

    def __new__(cls, number: int, *more: object, **named: object) -> Error:
        """An error of the subclass for the number."""
        kind = _CLASSES.get(int(number), cls) if cls is Error else cls
        return super().__new__(kind)

    def __init__(
        self, number: int, place: Optional[Tuple[int, int]] = None, looks_like: Optional[str] = None, wanted: int = 0,
        pointer: Optional[Tuple[int, int]] = None
    ) -> None:
        known = {int(it): it for it in Refusal}
        self.number = known.get(number, number)
        self.name = text_of(library.capnp_canonical_name, number)
        self.place, self.looks_like, self.wanted, self.pointer = place, looks_like, wanted, pointer
        super().__init__(self._sentence())

    def _sentence(self) -> str:
        text = f'message {self.place[0]} at byte {self.place[1]}: ' if self.place else ''
        where = f' at segment {self.pointer[0]}, word {self.pointer[1]}' if self.pointer else ''
        text += f'{self.name}{where}: {_TEXTS.get(self.number, "a refusal that this package does not know")}'
        if self.wanted:
            text += f', and {self.wanted} bytes are wanted'
        return text + (f'; they look like {self.looks_like}' if self.looks_like else '')

    def at(self, message: int, byte: int) -> Error:
        """The same error for the message with this number, at this byte of a stream."""
        return type(self)(self.number, (message, byte), self.looks_like, self.wanted, self.pointer)

    def __reduce__(self) -> Tuple[type[Error], Tuple[object, ...]]:
        return type(self), (int(self.number), self.place, self.looks_like, self.wanted, self.pointer)


class IncompleteError(Error):
    """The bytes end before the frame or the packed word does, or there are none."""


class MalformedError(Error):
    """The bytes aren't a message: whole words are missing, or a pointer is broken."""


class OverLimitError(Error):
    """The message is over one of the limits. It may be accepted with others."""


class TooLargeError(Error):
    """The message or its canonical form is larger than any that is accepted."""


class OutOfMemoryError(Error, MemoryError):
    """Memory ran out. It is a `MemoryError`, too."""


class CapabilityError(Error):
    """The value has a capability, and so no canonical form."""


class NoSuchPlaceError(Error):
    """The path leads nowhere."""


class NoRoomError(Error):
    """The buffer to write to is too small; `wanted` is how many bytes are needed."""


_CLASSES: Dict[int, Type[Error]] = {
    number: kind for kind, numbers in (
        (IncompleteError, (2, 19)), (MalformedError, (3, 34, 42, 43, 44, 45, 55, 66)), (OverLimitError, (18, 57, 58, 60, 62)),
        (TooLargeError, (17, 59)), (OutOfMemoryError, (32,)), (CapabilityError, (33,)), (NoSuchPlaceError, (61,)),
        (NoRoomError, (1,)),
    ) for number in numbers
}


@dataclass(frozen=True)
class Fault:
    """Why and where a message isn't canonical. It has no truth value, so that `if check(message)` can't be taken for
    yes."""

    reason: Union[Reason, int]
    """A `Reason`, or an int if that doesn't have the number."""
    segment: int
    """The number of the segment."""
    word: int
    """The position in the segment, in words."""

    @property
    def reason_text(self) -> str:
        """The reason as text, such as `a list whose padding isn't zero`."""
        return text_of(library.capnp_canonical_reason_text, self.reason)

    def __str__(self) -> str:
        return f'{self.reason_text} at segment {self.segment}, word {self.word}'

    def __bool__(self) -> bool:
        raise TypeError('a fault is neither true nor false: ask is_canonical(..), or check(..) is None')


@dataclass(frozen=True)
class Size:
    """The size of what the root of a message leads to, without the root pointer and landing pads."""

    words: int
    """Words of 8 bytes. The canonical words are at most one more."""
    capabilities: int
    """The number of capabilities."""


@dataclass(frozen=True)
class Extent:
    """How deep the value of a message is, how much it holds, and what reading it costs."""

    depth: int
    """The number of structs and lists that are nested in each other, at most: the least nesting limit."""
    words: int
    """Words of all objects, without landing pads. An object counts each time a pointer leads to it."""
    capabilities: int
    """The number of capabilities."""
    cost: int
    """Words that reading the whole value once takes from the traversal limit, with one for the root pointer."""


class Kind(enum.IntEnum):
    """What an object of a message is. A list has the format's number of its element size."""

    LIST_OF_VOID = 0
    LIST_OF_BITS = 1
    LIST_OF_BYTES = 2
    LIST_OF_TWO_BYTES = 3
    LIST_OF_FOUR_BYTES = 4
    LIST_OF_EIGHT_BYTES = 5
    LIST_OF_POINTERS = 6
    LIST_OF_STRUCTS = 7
    STRUCT = 8
    CAPABILITY = 9


@dataclass(frozen=True)
class Object:
    """An object of a message: its kind and place, and the pointer that leads to it."""

    kind: Kind
    """What it is."""
    parent: Optional[int]
    """The index of the object that the pointer is in; None for the root pointer."""
    pointer: Tuple[int, int]
    """The number of the pointer's segment, and the pointer's position there in words."""
    segment: int
    """The number of the object's segment; 0 for a capability."""
    word: int
    """The position of the object in its segment, in words; that of the first word after the tag for a list of structs; 0 for a
    capability."""
    count: int
    """The number of elements of a list; otherwise 0."""
    capability: int
    """The index of a capability; otherwise 0."""
    data_words: int
    """The number of data words of a struct, or of each element of a list of structs; otherwise 0."""
    pointers: int
    """The number of pointers of a struct, or of each element of a list of structs; otherwise 0."""


@dataclass(frozen=True)
class Walk:
    """The objects of a message."""

    objects: List[Object]
    """Each before those that its own pointers lead to. Null pointers and elements of lists of structs aren't among them."""
    count: int
    """The number of all objects, which may be more than `most`."""
    refused: Optional[Error]
    """The refusal of the broken pointer, with its place; the objects are then those before it. Otherwise None."""
