//! Copies a list of numbers: its words, with zeros after the last number (encoding specification,
//! "Lists" and "Canonicalization").

use crate::proved::capnp_allocation::making::make_list;
use crate::proved::capnp_arena_traits::arena::{copy_words, set_word, BuilderArena, WordPlace};
use crate::proved::capnp_words::error::ErrorKind;
use crate::proved::capnp_words::wire_pointer::{data_bits_per_element, ElementSize};
use crate::proved::capnp_words::words;

/// Copies a list of `count` numbers of the element size `size`, which are in the words `elements`,
/// and makes the pointer at `to` lead to the copy. Refuses only if the arena refuses the words;
/// then no word changes. Preconditions: the word at `to` is allocated; `size` is neither `Pointer`
/// nor `InlineComposite`; `count` is below 2^29; `elements` has exactly the words that `count`
/// elements take.
///
/// # Preconditions
///
/// ```text
/// requires place { IsPlace (A.view arena.old).words to.segment to.at }
/// requires flat { size_number size ≤ 5 }
/// requires few { count < 2 ^ 29 }
/// requires whole { length elements.now ≡ 8 * length (words_of elements.now) }
/// requires all { length (words_of elements.now) ≡ words_for (size_number size) count }
/// ```
#[inline(always)]
pub fn copy_primitive_list<A: BuilderArena>(
    arena: &mut A,
    to: WordPlace,
    size: ElementSize,
    count: u32,
    elements: &[u8],
) -> Result<(), ErrorKind> {
    let start = make_list(arena, to.segment, to.at, size, count)?;
    let bits = u64::from(count) * u64::from(data_bits_per_element(size));
    put_elements(arena, start.segment, start.at, elements, bits);
    Ok(())
}

/// Writes `elements`, which have `bits` bits in total, over the words of segment `id` from `start`
/// on. Zeroes the bits after the elements in the last word.
///
/// # Preconditions
///
/// ```text
/// requires whole { length elements.now ≡ 8 * length (words_of elements.now) }
/// requires inside { start + length (words_of elements.now)
///     ≤ length (segment (A.view arena.old).words id) }
/// requires all { (bits + 63) / 64 ≡ length (words_of elements.now) }
/// ```
#[inline(always)]
fn put_elements<A: BuilderArena>(arena: &mut A, id: u32, start: u32, elements: &[u8], bits: u64) {
    copy_words(arena, id, start, elements);
    let used = bits % 64;
    if used != 0 {
        let last = words::count(elements) - 1;
        let word = words::word_at(elements, last);
        set_word(arena, id, start + last as u32, word & ((1 << used) - 1));
    }
}
