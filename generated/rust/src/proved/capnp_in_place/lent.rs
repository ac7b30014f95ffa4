//! Lends bytes of a message being built, for writing in place (encoding specification, "Lists").

use crate::proved::capnp_arena_traits::arena::BuilderArena;
use crate::proved::capnp_in_place::existing::ExistingBytes;
use crate::proved::capnp_in_place::initializing::init_list;
use crate::proved::capnp_words::error::ErrorKind;
use crate::proved::capnp_words::wire_pointer::ElementSize;

/// Lends the bytes of segment `id` from position `from` on, up to position `end`, which isn't
/// included. The other bytes stay unchanged.
///
/// # Preconditions
///
/// ```text
/// requires there { id < length (A.segments arena.old) }
/// requires order { from ≤ end }
/// requires inside { end ≤ length (slice_index_or (A.segments arena.old) id []) }
/// ```
#[inline]
fn bytes_between_mut<A: BuilderArena>(
    arena: &mut A,
    id: u32,
    from: usize,
    end: usize,
) -> &mut [u8] {
    let bytes = arena.segment_mut(id);
    &mut bytes[from..end]
}

/// Lends the bytes at `bytes`, for writing in place; nothing else of the message changes.
/// Preconditions: segment `bytes.segment` exists; the words that hold `bytes` are allocated.
///
/// # Preconditions
///
/// ```text
/// requires there { bytes.segment < length (A.view arena.old).words }
/// requires inside { AreInside (A.view arena.old).words bytes }
/// ```
#[inline]
pub fn bytes_mut<A: BuilderArena>(arena: &mut A, bytes: ExistingBytes) -> &mut [u8] {
    let from = 8 * bytes.start as usize;
    let end = from + bytes.length as usize;
    bytes_between_mut(arena, bytes.segment, from, end)
}

/// Makes the pointer at `at` of segment `id` lead to new data of `size` zero bytes, and lends these
/// bytes for writing in place ("Lists"). Preconditions: word `at` of segment `id` is allocated;
/// `size` is below 2^29.
///
/// First zeroes the object that the pointer led to. Refusals: `AllocationFailed` if memory runs
/// out; `MessageTooLarge` if the object needs a new segment, and the object and a landing pad have
/// more than 536,870,911 words, or the message can't have more segments. After a refusal the
/// pointer is null.
///
/// # Preconditions
///
/// ```text
/// requires place { IsPlace (A.view arena.old).words id at }
/// requires few { size < 2 ^ 29 }
/// ```
#[inline]
pub fn init_data<A: BuilderArena>(
    arena: &mut A,
    id: u32,
    at: u32,
    size: u32,
) -> Result<&mut [u8], ErrorKind> {
    init_bytes(arena, id, at, size, size)
}

/// Makes the pointer at `at` of segment `id` lead to a new text of `size` zero bytes, followed by
/// the zero byte at a text's end. Lends the `size` bytes for writing in place, without that last
/// one ("Lists"). Preconditions: word `at` of segment `id` is allocated; `size` is below 2^29 - 1.
///
/// First zeroes the object that the pointer led to. Refusals: `AllocationFailed` if memory runs
/// out; `MessageTooLarge` if the object needs a new segment, and the object and a landing pad have
/// more than 536,870,911 words, or the message can't have more segments. After a refusal the
/// pointer is null.
///
/// # Preconditions
///
/// ```text
/// requires place { IsPlace (A.view arena.old).words id at }
/// requires few { size + 1 < 2 ^ 29 }
/// ```
#[inline]
pub fn init_text<A: BuilderArena>(
    arena: &mut A,
    id: u32,
    at: u32,
    size: u32,
) -> Result<&mut [u8], ErrorKind> {
    init_bytes(arena, id, at, size + 1, size)
}

/// Makes the pointer at `at` of segment `id` lead to a new list of `count` bytes, all zero, and
/// lends the first `size` of them.
///
/// # Preconditions
///
/// ```text
/// requires place { IsPlace (A.view arena.old).words id at }
/// requires few { (size ≤ count) × (count < 2 ^ 29) }
/// ```
#[inline]
fn init_bytes<A: BuilderArena>(
    arena: &mut A,
    id: u32,
    at: u32,
    count: u32,
    size: u32,
) -> Result<&mut [u8], ErrorKind> {
    let start = init_list(arena, id, at, ElementSize::Byte, count)?;
    let bytes = ExistingBytes {
        segment: start.segment,
        start: start.at,
        length: size,
    };
    Ok(bytes_mut(arena, bytes))
}
