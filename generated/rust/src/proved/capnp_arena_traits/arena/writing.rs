//! Writes whole words of a segment, by `BuilderArena::put_word` or through the bytes that
//! `BuilderArena::segment_mut` lends.

use crate::proved::capnp_arena_traits::arena::BuilderArena;
use crate::proved::capnp_words::words;

/// Writes `word` at position `at` of segment `id`. Precondition: word `at` of segment `id` is
/// allocated.
///
/// # Preconditions
///
/// ```text
/// requires { IsPlace (A.view arena.old).words id at }
/// ```
#[inline(always)]
pub fn set_word<A: BuilderArena>(arena: &mut A, id: u32, at: u32, word: u64) {
    arena.put_word(id, at, word);
}

/// Writes the words of `from` over those of segment `id` from position `at` on. If `from` is empty,
/// nothing changes. Preconditions: the length of `from` is a multiple of 8; segment `id` has at
/// least `at` allocated words more than there are in `from`.
///
/// # Preconditions
///
/// ```text
/// requires whole { length from.now ≡ 8 * length (words_of from.now) }
/// requires inside { at + length (words_of from.now)
///     ≤ length (segment (A.view arena.old).words id) }
/// ```
#[inline]
pub fn copy_words<A: BuilderArena>(arena: &mut A, id: u32, at: u32, from: &[u8]) {
    if !from.is_empty() {
        words::copy_words(arena.segment_mut(id), at as usize, from);
    }
}

/// Zeroes `n` words of segment `id` from position `at` on. If `n` is 0, nothing changes.
/// Precondition: segment `id` has at least `at + n` allocated words.
///
/// # Preconditions
///
/// ```text
/// requires { at + n ≤ length (segment (A.view arena.old).words id) }
/// ```
#[inline]
pub fn zero_words<A: BuilderArena>(arena: &mut A, id: u32, at: u32, n: u32) {
    if n > 0 {
        words::zero_words(arena.segment_mut(id), at as usize, n as usize);
    }
}
