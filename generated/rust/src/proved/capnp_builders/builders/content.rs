//! Overwrites the data section of a struct with that of another, and clears the struct's pointers
//! (encoding specification, "Structs").

use crate::proved::capnp_allocation::making::clear;
use crate::proved::capnp_arena_traits::arena::BuilderArena;
use crate::proved::capnp_in_place::numbers::{set_bit, set_number};
use crate::proved::capnp_readers::readers::StructPlace;
use crate::proved::capnp_words::lanes;

/// Writes the `bits` bits of data in `bytes` over the data section of the struct at `place`. Leaves
/// out bits that don't fit the section; if the section is longer, zeroes its rest.
///
/// # Preconditions
///
/// ```text
/// requires inside { IsStructPlace (A.view arena.old).words place }
/// requires long { length bytes.now ≡ bytes_for bits }
/// ```
#[inline]
pub(in crate::proved::capnp_builders) fn write_content<A: BuilderArena>(
    arena: &mut A,
    place: StructPlace,
    bytes: &[u8],
    bits: u32,
) {
    let whole = place.bits / 8;
    write_bytes(arena, place, bytes, bits);
    let bit = 8 * place.byte + u64::from(whole) * 8;
    let left = place.bits % 8;
    if left > 0 {
        let byte = content_byte(bytes, bits, whole);
        write_bits(arena, place.segment, bit, left, byte);
    }
}

/// Clears `count` consecutive pointers from `at` of segment `id` on: makes each null, and zeroes
/// the objects that it led to.
///
/// # Preconditions
///
/// ```text
/// requires room { at + count ≤ length (segment (A.view arena.old).words id) }
/// ```
#[inline]
pub(in crate::proved::capnp_builders) fn clear_pointers<A: BuilderArena>(
    arena: &mut A,
    id: u32,
    at: u32,
    count: u16,
) {
    for i in 0..count {
        clear(arena, id, at + u32::from(i));
    }
}

/// Like `write_content`, but writes only the whole bytes of the data section.
///
/// # Preconditions
///
/// ```text
/// requires inside { IsStructPlace (A.view arena.old).words place }
/// requires long { length bytes.now ≡ bytes_for bits }
/// ```
#[inline]
fn write_bytes<A: BuilderArena>(arena: &mut A, place: StructPlace, bytes: &[u8], bits: u32) {
    let id = place.segment;
    let start = place.byte;
    let count = place.bits / 8;
    let both = count.min(bits / 8);
    copy_bytes(arena, id, start, &bytes[..both as usize]);
    if both < count {
        let byte = content_byte(bytes, bits, both);
        let next = start + u64::from(both);
        set_number(arena, id, next, byte);
        zero_bytes(arena, id, next + 1, count - both - 1);
    }
}

/// Writes the bytes of `from` over those of segment `id` from byte `start` on.
///
/// # Preconditions
///
/// ```text
/// requires inside { start + length from.now ≤ 8 * length (segment (A.view arena.old).words id) }
/// ```
#[inline]
fn copy_bytes<A: BuilderArena>(arena: &mut A, id: u32, start: u64, from: &[u8]) {
    if !from.is_empty() {
        let first = start as usize;
        let end = first + from.len();
        let bytes = arena.segment_mut(id);
        lanes::copy(from, &mut bytes[first..end]);
    }
}

/// Zeroes `count` bytes of segment `id` from byte `start` on.
///
/// # Preconditions
///
/// ```text
/// requires inside { start + count ≤ 8 * length (segment (A.view arena.old).words id) }
/// ```
#[inline]
fn zero_bytes<A: BuilderArena>(arena: &mut A, id: u32, start: u64, count: u32) {
    if count > 0 {
        let first = start as usize;
        let end = first + count as usize;
        let bytes = arena.segment_mut(id);
        lanes::zero(&mut bytes[first..end]);
    }
}

/// Writes the lowest `count` bits of `byte` over those of segment `id` from bit `start` on.
///
/// # Preconditions
///
/// ```text
/// requires inside { start + count ≤ 64 * length (segment (A.view arena.old).words id) }
/// requires few { count < 8 }
/// ```
#[inline]
fn write_bits<A: BuilderArena>(arena: &mut A, id: u32, start: u64, count: u32, byte: u8) {
    for j in 0..count {
        set_bit(arena, id, start + u64::from(j), byte >> j & 1 == 1);
    }
}

/// Returns byte `index` of the `bits` bits of data in `bytes`. Bits beyond these `bits` bits are 0.
///
/// # Preconditions
///
/// ```text
/// requires long { length bytes.now ≡ bytes_for bits }
/// ```
#[inline]
fn content_byte(bytes: &[u8], bits: u32, index: u32) -> u8 {
    let i = index as usize;
    if i >= bytes.len() {
        return 0;
    }
    let left = bits as usize - 8 * i;
    if left >= 8 {
        return bytes[i];
    }
    bytes[i] & ((1 << left) - 1)
}
