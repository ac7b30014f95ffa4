//! Packs words to bytes in memory (encoding specification, "Packing").

use crate::proved::support::simd::prelude::*;

/// The most packed bytes that one call of `pack_unit` makes: 1 for a tag, 8 for its word, 1 for a
/// count, and 255 * 8 for the words that the count states.
pub(super) const MOST_BYTES: usize = 2050;

/// How far packing got.
#[derive(Clone, Copy)]
pub(super) struct Packed {
    /// The number of bytes of the words that were packed.
    pub(super) taken: usize,
    /// The number of packed bytes written.
    pub(super) given: usize,
}

/// The tag of a word.
///
/// # Preconditions
///
/// ```text
/// requires { length word.now ≡ 8 }
/// ```
#[inline(always)]
fn tag_of(word: &[u8]) -> u8 {
    u8x8::from_slice(word).simd_ne(u8x8::splat(0)).to_bitmask() as u8
}

/// The number of zero words at the front of `bytes`, at most 255.
fn leading_zero_words(bytes: &[u8]) -> u8 {
    let mut n = 0;
    while n < 255 && bytes.len() >= 8 * (n as usize) + 8 {
        let at = 8 * n as usize;
        if tag_of(&bytes[at..at + 8]) != 0 {
            break;
        }
        n += 1;
    }
    n
}

/// Whether at most one byte of the word is zero. In the code, `zeros` has the highest bit set in
/// each byte that is zero in `word`.
#[inline(always)]
fn is_full(word: u64) -> bool {
    const LOW: u64 = 0x7f7f_7f7f_7f7f_7f7f;
    let zeros = !((word & LOW).wrapping_add(LOW) | word | LOW);
    zeros & zeros.wrapping_sub(1) == 0
}

/// The number of words at the front of `bytes` that have at most one zero byte each; at most 255.
fn leading_full_words(bytes: &[u8]) -> u8 {
    let mut n = 0;
    for word in bytes.as_chunks::<8>().0 {
        if n == 255 || !is_full(u64::from_le_bytes(*word)) {
            break;
        }
        n += 1;
    }
    n
}

/// Writes those of `bytes` that aren't zero to the front of `to`, and returns their number.
///
/// # Preconditions
///
/// ```text
/// requires { length bytes.now ≤ length to.old }
/// ```
#[inline(always)]
fn write_nonzero_bytes(to: &mut [u8], bytes: &[u8]) -> usize {
    let mut n = 0;
    for i in 0..bytes.len() {
        to[n] = bytes[i];
        if bytes[i] != 0 {
            n += 1;
        }
    }
    n
}

/// Writes the bytes of `word` that aren't zero to the front of `to`, and returns their number. In
/// most words the last three bytes are zero, as in a small number or the pointer to a short text.
///
/// # Preconditions
///
/// ```text
/// requires tag { tag ≡ tag_of_word word.now }
/// requires room { length to.old ≡ 8 }
/// requires word { length word.now ≡ 8 }
/// ```
#[inline(always)]
fn write_nonzero_bytes_of_word(tag: u8, to: &mut [u8], word: &[u8]) -> usize {
    let n = write_nonzero_bytes(to, &word[..5]);
    if tag < 32 {
        return n;
    }
    n + write_nonzero_bytes(&mut to[n..], &word[5..])
}

/// Packs a zero word, and at most 255 zero words right after it.
///
/// # Preconditions
///
/// ```text
/// requires ready { CanPack to.old from.now }
/// requires zero { tag_of_word (take 8 from.now) ≡ 0 }
/// ```
#[inline(always)]
fn pack_zeros(to: &mut [u8], from: &[u8]) -> Packed {
    let n = leading_zero_words(&from[8..]);
    to[0] = 0;
    to[1] = n;
    Packed {
        taken: 8 + 8 * n as usize,
        given: 2,
    }
}

/// Packs a word without a zero byte, and at most 255 words right after it that have at most one
/// zero byte each.
///
/// # Preconditions
///
/// ```text
/// requires { CanPack to.old from.now }
/// ```
#[inline(always)]
fn pack_full(to: &mut [u8], from: &[u8]) -> Packed {
    let n = leading_full_words(&from[8..]);
    let more = 8 * n as usize;
    to[0] = 255;
    to[1..9].copy_from_slice(&from[..8]);
    to[9] = n;
    if n == 0 {
        return Packed {
            taken: 8,
            given: 10,
        };
    }
    to[10..10 + more].copy_from_slice(&from[8..8 + more]);
    Packed {
        taken: 8 + more,
        given: 10 + more,
    }
}

/// Packs the first word of `from`. If that has only zero bytes or no zero byte, also packs words
/// after it, like `pack_zeros` or `pack_full`.
///
/// # Preconditions
///
/// ```text
/// requires { CanPack to.old from.now }
/// ```
#[inline(always)]
fn pack_unit(to: &mut [u8], from: &[u8]) -> Packed {
    let tag = tag_of(&from[..8]);
    if tag == 0 {
        return pack_zeros(to, from);
    }
    if tag == 255 {
        return pack_full(to, from);
    }
    to[0] = tag;
    let n = write_nonzero_bytes_of_word(tag, &mut to[1..9], &from[..8]);
    Packed {
        taken: 8,
        given: 1 + n,
    }
}

/// Packs words of `from`, in order, while there is a word left and `to` has room for `MOST_BYTES`
/// more bytes.
///
/// # Preconditions
///
/// ```text
/// requires { CanPack to.old from.now }
/// ```
pub(super) fn pack_words(to: &mut [u8], from: &[u8]) -> Packed {
    let mut taken = 0;
    let mut given = 0;
    while from.len() - taken >= 8 && to.len() - given >= MOST_BYTES {
        let unit = pack_unit(&mut to[given..], &from[taken..]);
        taken += unit.taken;
        given += unit.given;
    }
    Packed { taken, given }
}
