"""Messages of pycapnp, which this package doesn't import: anything with their methods will do."""
from __future__ import annotations

from typing import TYPE_CHECKING, Any, Protocol, Union

if TYPE_CHECKING:
    from _typeshed import ReadableBuffer


class Reader(Protocol):
    """A struct that is read, of pycapnp."""

    def as_builder(self) -> Any:
        ...


class Builder(Protocol):
    """A struct that is built, of pycapnp; it needn't be the root of its message."""

    def as_reader(self) -> Any:
        ...


if TYPE_CHECKING:
    # A frame, or a struct of pycapnp, which stands for a message with this struct at its root.
    Message = Union[ReadableBuffer, Reader, Builder]


def frame_of(message: Any) -> Any:
    """The frame that a struct of pycapnp stands for; what is anything else is returned."""
    kind = type(message)
    if hasattr(kind, 'as_reader'):
        # a builder would say that it has been written
        message = message.as_reader()
    elif not hasattr(kind, 'as_builder'):
        return message
    return message.as_builder().to_bytes()
