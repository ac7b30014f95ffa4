//! Tests whether bytes are zero, zeroes bytes, and copies bytes, with vectors: 64 bytes at a time,
//! and the rest by words and bytes. For every length, each function has the same result as a loop
//! over single bytes.

use crate::proved::capnp_words::words::word_at;
use crate::proved::support::simd::prelude::*;

/// Whether the 64 bytes at `at` are zero.
///
/// # Preconditions
///
/// ```text
/// requires { at + 64 ≤ length bytes.now }
/// ```
#[inline(always)]
fn is_block_zero(bytes: &[u8], at: usize) -> bool {
    u8x64::from_slice(&bytes[at..]).reduce_or() == 0
}

/// Whether the eight bytes at `at` are zero.
///
/// # Preconditions
///
/// ```text
/// requires { at + 8 ≤ length bytes.now }
/// ```
#[inline(always)]
fn is_word_zero(bytes: &[u8], at: usize) -> bool {
    u8x8::from_slice(&bytes[at..]).reduce_or() == 0
}

/// Whether all bytes are zero, tested one by one.
#[inline(always)]
fn is_zero_by_bytes(bytes: &[u8]) -> bool {
    bytes.iter().all(|byte| *byte == 0)
}

/// Whether all bytes are zero, tested by words, and then by bytes.
#[inline(always)]
fn is_zero_by_words(bytes: &[u8]) -> bool {
    let mut at = 0;
    while bytes.len() - at >= 8 {
        if !is_word_zero(bytes, at) {
            return false;
        }
        at += 8;
    }
    is_zero_by_bytes(&bytes[at..])
}

/// Whether all bytes are zero; `true` if `bytes` is empty.
#[inline]
pub fn is_zero(bytes: &[u8]) -> bool {
    let mut at = 0;
    while bytes.len() - at >= 64 {
        if !is_block_zero(bytes, at) {
            return false;
        }
        at += 64;
    }
    is_zero_by_words(&bytes[at..])
}

/// Of the first `end` words, the number up to and including the last one that isn't zero; 0 if all
/// are zero.
///
/// # Preconditions
///
/// ```text
/// requires { 8 * end ≤ length bytes.now }
/// ```
#[inline(always)]
fn used_words_before(bytes: &[u8], end: usize) -> usize {
    let mut n = end;
    while n > 0 {
        if word_at(bytes, n - 1) != 0 {
            return n;
        }
        n -= 1;
    }
    0
}

/// Returns a number of words after which all words of `bytes` are zero, but not always the
/// smallest. Tests 64 bytes at a time, from the end.
#[inline(never)]
fn used_words_bound(bytes: &[u8]) -> usize {
    let mut end = bytes.len() / 8;
    while end >= 8 {
        if !is_block_zero(bytes, 8 * (end - 8)) {
            return end;
        }
        end -= 8;
    }
    end
}

/// The number of words up to and including the last one that isn't zero. If the last word of
/// `bytes` isn't zero, reads only this word. Precondition: there is at least one word.
///
/// # Preconditions
///
/// ```text
/// requires { 8 ≤ length bytes.now }
/// ```
#[inline]
fn used_words_of_many(bytes: &[u8]) -> usize {
    let words = bytes.len() / 8;
    if word_at(bytes, words - 1) != 0 {
        return words;
    }
    used_words_before(bytes, used_words_bound(bytes))
}

/// The number of words up to and including the last one that isn't zero. If there are fewer than 32
/// words, tests them one by one, because that is fastest then.
#[inline(always)]
fn used_words(bytes: &[u8]) -> usize {
    let words = bytes.len() / 8;
    if words < 32 {
        used_words_before(bytes, words)
    } else {
        used_words_of_many(bytes)
    }
}

/// The number of zero words at the end of `bytes`. Precondition: the length of `bytes` is a
/// multiple of 8.
///
/// # Preconditions
///
/// ```text
/// requires { length bytes.now % 8 ≡ 0 }
/// ```
#[inline]
pub fn trailing_zero_words(bytes: &[u8]) -> usize {
    bytes.len() / 8 - used_words(bytes)
}

/// Zeroes all bytes: 8 bytes or more with two vectors that may overlap, fewer than 8 one by one.
/// Precondition: there are fewer than 64 bytes.
///
/// # Preconditions
///
/// ```text
/// requires { length bytes.old < 64 }
/// ```
#[inline(always)]
fn zero_short(bytes: &mut [u8]) {
    let n = bytes.len();
    if n >= 32 {
        u8x32::splat(0).copy_to_slice(bytes);
        u8x32::splat(0).copy_to_slice(&mut bytes[n - 32..]);
    } else if n >= 16 {
        u8x16::splat(0).copy_to_slice(bytes);
        u8x16::splat(0).copy_to_slice(&mut bytes[n - 16..]);
    } else if n >= 8 {
        u8x8::splat(0).copy_to_slice(bytes);
        u8x8::splat(0).copy_to_slice(&mut bytes[n - 8..]);
    } else {
        for i in 0..n {
            bytes[i] = 0;
        }
    }
}

/// Zeroes all bytes. For 64 bytes or more, uses a plain loop, for which the compiler's code is
/// fastest.
#[inline(always)]
pub fn zero(bytes: &mut [u8]) {
    if bytes.len() < 64 {
        zero_short(bytes);
    } else {
        for byte in bytes.iter_mut() {
            *byte = 0;
        }
    }
}

/// Copies `from` to `to`: 8 bytes or more with two vectors that may overlap, fewer than 8 one by
/// one. Preconditions: `to` has the same length as `from`; there are fewer than 64 bytes.
///
/// # Preconditions
///
/// ```text
/// requires same { length from.now ≡ length to.old }
/// requires short { length from.now < 64 }
/// ```
#[inline(always)]
fn copy_short(from: &[u8], to: &mut [u8]) {
    let n = from.len();
    if n >= 32 {
        u8x32::from_slice(from).copy_to_slice(to);
        u8x32::from_slice(&from[n - 32..]).copy_to_slice(&mut to[n - 32..]);
    } else if n >= 16 {
        u8x16::from_slice(from).copy_to_slice(to);
        u8x16::from_slice(&from[n - 16..]).copy_to_slice(&mut to[n - 16..]);
    } else if n >= 8 {
        u8x8::from_slice(from).copy_to_slice(to);
        u8x8::from_slice(&from[n - 8..]).copy_to_slice(&mut to[n - 8..]);
    } else {
        for i in 0..n {
            to[i] = from[i];
        }
    }
}

/// Copies `from` to `to`. For 64 bytes or more, uses the standard library's `copy_from_slice`,
/// which is fastest then. Precondition: `to` has the same length as `from`.
///
/// # Preconditions
///
/// ```text
/// requires { length from.now ≡ length to.old }
/// ```
#[inline(always)]
pub fn copy(from: &[u8], to: &mut [u8]) {
    if from.len() < 64 {
        copy_short(from, to);
    } else {
        to.copy_from_slice(from);
    }
}
