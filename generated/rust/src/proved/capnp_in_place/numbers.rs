//! Writes and reads numbers and bits in place: in the data section of a struct, or in a list of
//! numbers (encoding specification, "Structs" and "Lists").

use crate::proved::capnp_arena_traits::arena::BuilderArena;
use crate::proved::capnp_words::primitive::Primitive;

/// Writes `value` into segment `id` at byte `byte`. Preconditions: `byte` is a multiple of the
/// number's width; the number is in allocated words of segment `id`.
///
/// # Preconditions
///
/// ```text
/// requires inside { byte + T.BYTES ≤ 8 * length (segment (A.view arena.old).words id) }
/// requires aligned { byte % T.BYTES ≡ 0 }
/// ```
#[inline]
pub fn set_number<A: BuilderArena, T: Primitive>(arena: &mut A, id: u32, byte: u64, value: T) {
    let start = byte as usize;
    let bytes = arena.segment_mut(id);
    value.store(&mut bytes[start..start + T::BYTES]);
}

/// Writes bit `bit` of segment `id`, which is counted from the lowest bit of the segment's first
/// byte on. Precondition: bit `bit` is in an allocated word of segment `id`.
///
/// # Preconditions
///
/// ```text
/// requires inside { bit < 64 * length (segment (A.view arena.old).words id) }
/// ```
#[inline]
pub fn set_bit<A: BuilderArena>(arena: &mut A, id: u32, bit: u64, value: bool) {
    let bytes = arena.segment_mut(id);
    let byte = &mut bytes[(bit / 8) as usize];
    let mask = 1u8 << (bit % 8);
    if value {
        *byte |= mask;
    } else {
        *byte &= !mask;
    }
}

/// Returns the number in segment `id` at byte `byte`. Preconditions: `byte` is a multiple of the
/// number's width; the number is in allocated words of segment `id`.
///
/// # Preconditions
///
/// ```text
/// requires inside { byte + T.BYTES ≤ 8 * length (segment (A.view arena.now).words id) }
/// requires aligned { byte % T.BYTES ≡ 0 }
/// ```
#[inline]
pub fn get_number<A: BuilderArena, T: Primitive>(arena: &A, id: u32, byte: u64) -> T {
    let Ok(bytes) = arena.get_segment(id) else {
        unreachable!()
    };
    number_in(bytes, byte)
}

/// Returns the number in `bytes` at byte `byte`. Preconditions: `byte` is a multiple of the
/// number's width, and the number is inside the whole words of `bytes`.
///
/// # Preconditions
///
/// ```text
/// requires small { length bytes.now < 8 * 2 ^ 32 }
/// requires inside { byte + T.BYTES ≤ 8 * length (words_of bytes.now) }
/// requires aligned { byte % T.BYTES ≡ 0 }
/// ```
#[inline]
fn number_in<T: Primitive>(bytes: &[u8], byte: u64) -> T {
    let start = byte as usize;
    T::load(&bytes[start..start + T::BYTES])
}

/// Returns bit `bit` of segment `id`, which is counted from the lowest bit of the segment's first
/// byte on. Precondition: bit `bit` is in an allocated word of segment `id`.
///
/// # Preconditions
///
/// ```text
/// requires inside { bit < 64 * length (segment (A.view arena.now).words id) }
/// ```
#[inline]
pub fn get_bit<A: BuilderArena>(arena: &A, id: u32, bit: u64) -> bool {
    let Ok(bytes) = arena.get_segment(id) else {
        unreachable!()
    };
    bit_in(bytes, bit)
}

/// Returns bit `bit` of `bytes`, which is counted from the lowest bit of the first byte on.
/// Precondition: the bit is inside the whole words of `bytes`.
///
/// # Preconditions
///
/// ```text
/// requires inside { bit < 64 * length (words_of bytes.now) }
/// ```
#[inline]
fn bit_in(bytes: &[u8], bit: u64) -> bool {
    (bytes[(bit / 8) as usize] >> (bit % 8)) & 1 == 1
}
