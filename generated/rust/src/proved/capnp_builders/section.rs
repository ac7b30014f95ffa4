//! The words of the data section of a struct being read. The section may end inside a word, and
//! even inside a byte (encoding specification, "Structs").

use crate::proved::capnp_arena_traits::arena::{set_word, BuilderArena, WordPlace};
use crate::proved::capnp_copies::copy::put_words;
use crate::proved::capnp_words::words::{used_words_in, word_range};

/// The number of words that a copy keeps of a data section: in plain form all, the last one filled
/// up with zeros; in canonical form those up to the last one that isn't zero.
///
/// # Preconditions
///
/// ```text
/// requires long { length bytes.now ≡ bytes_for bits }
/// ```
#[inline]
pub(in crate::proved::capnp_builders) fn kept_words(
    bytes: &[u8],
    bits: u32,
    canonicalize: bool,
) -> usize {
    if !canonicalize {
        return (bits as usize + 63) / 64;
    }
    let whole = bits as usize / 64;
    if last_partial_word(bytes, bits) != 0 {
        return whole + 1;
    }
    used_words_in(bytes, 0, whole)
}

/// Writes the first `kept` words of a data section over the words from `to` on.
///
/// # Preconditions
///
/// ```text
/// requires long { length bytes.now ≡ bytes_for bits }
/// requires few { kept ≤ length (section_words bits bytes.now) }
/// requires inside { to.at + kept ≤ length (segment (A.view arena.old).words to.segment) }
/// ```
#[inline]
pub(in crate::proved::capnp_builders) fn write_section<A: BuilderArena>(
    arena: &mut A,
    to: WordPlace,
    bytes: &[u8],
    bits: u32,
    kept: u16,
) {
    let WordPlace { segment: id, at } = to;
    let whole = bits / 64;
    let kept = u32::from(kept);
    if kept <= whole {
        put_words(arena, id, at, word_range(bytes, 0, kept as usize));
        return;
    }
    put_words(arena, id, at, word_range(bytes, 0, whole as usize));
    set_word(arena, id, at + whole, last_partial_word(bytes, bits));
}

/// The bits after the last whole word of a data section, as a number; 0 if there are none.
///
/// # Preconditions
///
/// ```text
/// requires long { length bytes.now ≡ bytes_for bits }
/// ```
#[inline]
fn last_partial_word(bytes: &[u8], bits: u32) -> u64 {
    let whole = 8 * (bits as usize / 64);
    let mut word: u64 = 0;
    let mut i = bytes.len();
    while i > whole {
        i -= 1;
        word = word * 256 + u64::from(bytes[i]);
    }
    word & ((1 << (bits % 64)) - 1)
}
