"""Guesses what bytes are that were refused as a frame, like capnp_canonical_looks_like of the header."""
from __future__ import annotations

from typing import Callable, Optional

_BEGINNINGS = {
    b'\x1f\x8b': 'gzip', b'\x28\xb5\x2f\xfd': 'zstd', b'BZh': 'bzip2', b'\xfd7zX': 'xz', b'PK\3\4': 'a zip archive',
}
_CONTROLS = {*range(32), 127} - set(b'\t\n\r')


def _looks_packed(front: bytes) -> bool:
    """Whether packed bytes start with what may be the table of a frame."""
    word, at = bytearray(8), 1
    for place in range(8):
        if not front[0] >> place & 1:
            continue
        if at == len(front) or front[at] == 0:
            return False
        word[place] = front[at]
        at += 1
    segments, words = int.from_bytes(word[:4], 'little') + 1, int.from_bytes(word[4:], 'little')
    return segments <= 512 and 0 < words < 1 << 29


def looks_like(front: bytes, size: int, is_canonical: Callable[[bytes], bool]) -> Optional[str]:
    """What the first of `size` bytes look like, such as `gzip`; None if they look like nothing else."""
    if size < 4:
        return None
    for beginning, name in _BEGINNINGS.items():
        if front.startswith(beginning):
            return name
    if not _CONTROLS.intersection(front[:64]):
        return 'text'
    if size == len(front) and is_canonical(front):
        return 'raw canonical words'
    return 'packed messages' if _looks_packed(front) else None
