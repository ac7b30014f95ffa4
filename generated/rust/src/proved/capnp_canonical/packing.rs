//! Packs words to a buffer (encoding specification, "Packing").

use crate::proved::capnp_canonical::refusal::Refusal;
use crate::proved::support::simd::prelude::*;

/// The first word of some words, and those that are packed together with it.
#[derive(Clone, Copy)]
struct Group {
    /// The tag of the first word.
    tag: u8,
    /// The number of words after the first.
    more: u8,
}

impl Group {
    /// The number of bytes of its words.
    fn unpacked_size(self) -> usize {
        8 + 8 * self.more as usize
    }

    /// The number of bytes that they are packed to.
    fn packed_size(self) -> usize {
        if self.tag == 0 {
            return 2;
        }
        if self.tag == 255 {
            return 10 + 8 * self.more as usize;
        }
        1 + self.tag.count_ones() as usize
    }
}

/// The tag of a word.
///
/// # Preconditions
///
/// ```text
/// requires { length word.now ≡ 8 }
/// ```
#[inline(always)]
fn tag_of(word: &[u8]) -> u8 {
    u8x8::from_slice(word).simd_ne(u8x8::splat(0)).to_bitmask() as u8
}

/// The number of words at the front of `bytes`, at most 255, in which from `least` to `most` bytes
/// aren't zero.
fn leading_words(least: u32, most: u32, bytes: &[u8]) -> u8 {
    let mut n: u8 = 0;
    while n < 255 {
        let rest = &bytes[8 * n as usize..];
        if rest.len() < 8 {
            break;
        }
        let ones = tag_of(&rest[..8]).count_ones();
        if ones < least {
            break;
        }
        if most < ones {
            break;
        }
        n += 1;
    }
    n
}

/// The words at the front of `words` that are packed together.
///
/// # Preconditions
///
/// ```text
/// requires { 8 ≤ length words.now }
/// ```
fn first_words(words: &[u8]) -> Group {
    let tag = tag_of(&words[..8]);
    let more = if tag == 0 {
        leading_words(0, 0, &words[8..])
    } else if tag == 255 {
        leading_words(7, 8, &words[8..])
    } else {
        0
    };
    Group { tag, more }
}

/// The number of bytes that `words`, which are whole words, are packed to; `None` if that is 2^64
/// or more.
///
/// # Preconditions
///
/// ```text
/// requires { length words.now % 8 ≡ 0 }
/// ```
fn packed_size(words: &[u8]) -> Option<usize> {
    let mut taken: usize = 0;
    let mut size: usize = 0;
    while taken < words.len() {
        let group = first_words(&words[taken..]);
        let Some(sum) = size.checked_add(group.packed_size()) else {
            return None;
        };
        size = sum;
        taken += group.unpacked_size();
    }
    Some(size)
}

/// Writes `byte` after the first `at` bytes of `to`, and returns the number of bytes written so
/// far.
///
/// # Preconditions
///
/// ```text
/// requires { at < length to.old }
/// ```
#[inline(always)]
fn put_byte(byte: u8, to: &mut [u8], at: usize) -> usize {
    to[at] = byte;
    at + 1
}

/// Writes `bytes` after the first `at` bytes of `to`, and returns the number of bytes written so
/// far.
///
/// # Preconditions
///
/// ```text
/// requires { at + length bytes.now ≤ length to.old }
/// ```
#[inline(always)]
fn put_bytes(bytes: &[u8], to: &mut [u8], at: usize) -> usize {
    let end = at + bytes.len();
    to[at..end].copy_from_slice(bytes);
    end
}

/// Writes those of `bytes` that aren't zero after the first `at` bytes of `to`, and returns the
/// number of bytes written so far.
///
/// # Preconditions
///
/// ```text
/// requires { at + length (nonzero_bytes bytes.now) ≤ length to.old }
/// ```
#[inline(always)]
fn put_nonzero_bytes(bytes: &[u8], to: &mut [u8], at: usize) -> usize {
    let mut end = at;
    for byte in bytes {
        if *byte != 0 {
            end = put_byte(*byte, to, end);
        }
    }
    end
}

/// Packs the first words of `words`, which are `group`, after the first `at` bytes of `to`, and
/// returns the number of bytes written so far.
///
/// # Preconditions
///
/// ```text
/// requires word { 8 ≤ length words.now }
/// requires tag { group.tag ≡ first_tag words.now }
/// requires more { group.more ≡ first_run words.now }
/// requires within { 8 + 8 * group.more ≤ length words.now }
/// requires room { at + length (first_group words.now) ≤ length to.old }
/// ```
fn put_group(group: Group, words: &[u8], to: &mut [u8], at: usize) -> usize {
    let tagged = put_byte(group.tag, to, at);
    if group.tag == 0 {
        return put_byte(group.more, to, tagged);
    }
    if group.tag == 255 {
        let filled = put_bytes(&words[..8], to, tagged);
        let counted = put_byte(group.more, to, filled);
        return put_bytes(&words[8..group.unpacked_size()], to, counted);
    }
    put_nonzero_bytes(&words[..8], to, tagged)
}

/// Packs `words`, which are whole words, to `to`, which has exactly as many bytes as they are
/// packed to.
///
/// # Preconditions
///
/// ```text
/// requires whole { length words.now % 8 ≡ 0 }
/// requires room { length (packed_words words.now) ≡ length to.old }
/// ```
fn pack_to_slice(words: &[u8], to: &mut [u8]) {
    let mut taken = 0;
    let mut given = 0;
    while taken < words.len() {
        let rest = &words[taken..];
        let group = first_words(rest);
        given = put_group(group, rest, to, given);
        taken += group.unpacked_size();
    }
}

/// Packs `words` to the front of `to`, and returns the number of packed bytes. Counts them first,
/// so it writes nothing if `to` is too small, or `words` isn't whole words.
pub fn pack(words: &[u8], to: &mut [u8]) -> Result<usize, Refusal> {
    let room = to.len();
    if words.len() % 8 != 0 {
        return Err(Refusal::SegmentIsNotWholeWords);
    }
    let Some(size) = packed_size(words) else {
        return Err(Refusal::NoRoom(usize::MAX));
    };
    if room < size {
        return Err(Refusal::NoRoom(size));
    }
    pack_to_slice(words, &mut to[..size]);
    Ok(size)
}
