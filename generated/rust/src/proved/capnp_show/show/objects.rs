//! The bytes of an object, and the numbers in them.

use crate::proved::capnp_pointers::object::Place;
use crate::proved::capnp_words::wire_pointer::ElementSize;

/// The place `words` words after `start`. It saturates nowhere inside of an object.
pub(super) fn place_past(start: Place, words: u32) -> Place {
    Place {
        at: start.at.saturating_add(words),
        ..start
    }
}

/// Does nothing: its contract says what bytes are.
pub(super) fn bytes_are_below_256(bytes: &[u8]) {}

/// The `count` bytes from `start` on; fewer if the segment has fewer.
pub(super) fn bytes_at<'a>(start: Place<'a>, count: usize) -> &'a [u8] {
    let all = start.bytes;
    let from = (8 * start.at as usize).min(all.len());
    let rest = &all[from..];
    &rest[..count.min(rest.len())]
}

/// Element `index` of a list of bits or numbers of this size, whose elements start at `start`.
pub(super) fn number_at(start: Place, size: ElementSize, index: u32) -> u64 {
    element_in_word(
        place_past(start, word_index(size, index)).word().0,
        size,
        index,
    )
}

/// The word that element `index` of such a list is in, counted from the start of the list.
fn word_index(size: ElementSize, index: u32) -> u32 {
    match size {
        ElementSize::Bit => index / 64,
        ElementSize::Byte => index / 8,
        ElementSize::TwoBytes => index / 4,
        ElementSize::FourBytes => index / 2,
        _ => index,
    }
}

/// Element `index` of such a list, which is in this word.
fn element_in_word(word: u64, size: ElementSize, index: u32) -> u64 {
    match size {
        ElementSize::Bit => (word >> (index % 64)) % 2,
        ElementSize::Byte => (word >> (index % 8 * 8)) % 0x100,
        ElementSize::TwoBytes => (word >> (index % 4 * 16)) % 0x1_0000,
        ElementSize::FourBytes => (word >> (index % 2 * 32)) % 0x1_0000_0000,
        _ => word,
    }
}
