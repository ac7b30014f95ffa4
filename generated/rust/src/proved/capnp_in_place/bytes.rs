//! Makes a pointer lead to a text or to data (encoding specification, "Lists").
//!
//! Data is a list of bytes; a text is a list of bytes whose last byte is zero.

use crate::proved::capnp_arena_traits::arena::{BuilderArena, WordPlace};
use crate::proved::capnp_in_place::initializing::init_list;
use crate::proved::capnp_words::error::ErrorKind;
use crate::proved::capnp_words::lanes;
use crate::proved::capnp_words::wire_pointer::ElementSize;

/// Makes the pointer at `at` of segment `id` lead to new data, which are the bytes of `from`
/// ("Lists"). Preconditions: word `at` of segment `id` is allocated; `from` has fewer than 2^29
/// bytes.
///
/// First zeroes the object that the pointer led to. Refusals: `AllocationFailed` if memory runs
/// out; `MessageTooLarge` if the object needs a new segment, and the object and a landing pad have
/// more than 536,870,911 words, or the message can't have more segments. After a refusal the
/// pointer is null.
///
/// # Preconditions
///
/// ```text
/// requires place { IsPlace (A.view arena.old).words id at }
/// requires few { length from.now < 2 ^ 29 }
/// ```
#[inline(always)]
pub fn set_data<A: BuilderArena>(
    arena: &mut A,
    id: u32,
    at: u32,
    from: &[u8],
) -> Result<(), ErrorKind> {
    set_bytes(arena, id, at, from, from.len() as u32)
}

/// Makes the pointer at `at` of segment `id` lead to a new text: the bytes of `from`, followed by a
/// zero byte ("Lists"). Preconditions: word `at` of segment `id` is allocated; `from` has fewer
/// than 2^29 - 1 bytes.
///
/// First zeroes the object that the pointer led to. Refusals: `AllocationFailed` if memory runs
/// out; `MessageTooLarge` if the object needs a new segment, and the object and a landing pad have
/// more than 536,870,911 words, or the message can't have more segments. After a refusal the
/// pointer is null.
///
/// # Preconditions
///
/// ```text
/// requires place { IsPlace (A.view arena.old).words id at }
/// requires few { length from.now + 1 < 2 ^ 29 }
/// ```
#[inline(always)]
pub fn set_text<A: BuilderArena>(
    arena: &mut A,
    id: u32,
    at: u32,
    from: &[u8],
) -> Result<(), ErrorKind> {
    set_bytes(arena, id, at, from, from.len() as u32 + 1)
}

/// Makes the pointer at `at` of segment `id` lead to a new list of `count` bytes: those of `from`,
/// followed by zeros.
///
/// # Preconditions
///
/// ```text
/// requires place { IsPlace (A.view arena.old).words id at }
/// requires few { (length from.now ≤ count) × (count < 2 ^ 29) }
/// ```
#[inline(always)]
fn set_bytes<A: BuilderArena>(
    arena: &mut A,
    id: u32,
    at: u32,
    from: &[u8],
    count: u32,
) -> Result<(), ErrorKind> {
    let start = init_list(arena, id, at, ElementSize::Byte, count)?;
    write_bytes(arena, start, from);
    Ok(())
}

/// Writes the bytes of `from` into the message, from the word `start` on. Precondition: the bytes
/// that are overwritten are inside the segment.
///
/// # Preconditions
///
/// ```text
/// requires there { start.segment < length (A.view arena.old).words }
/// requires inside { 8 * start.at + length from.now
///     ≤ 8 * length (segment (A.view arena.old).words start.segment) }
/// ```
#[inline]
fn write_bytes<A: BuilderArena>(arena: &mut A, start: WordPlace, from: &[u8]) {
    if !from.is_empty() {
        let first = 8 * start.at as usize;
        let end = first + from.len();
        lanes::copy(from, &mut arena.segment_mut(start.segment)[first..end]);
    }
}
