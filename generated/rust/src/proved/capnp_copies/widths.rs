//! The sizes of the elements of a list of structs in canonical form (encoding specification,
//! "Canonicalization").

use crate::proved::capnp_words::wire_pointer::StructSize;
use crate::proved::capnp_words::words;

/// A list of structs: their number, and the sections of each.
#[derive(Clone, Copy)]
pub struct StructList {
    /// The number of structs.
    pub count: u32,
    /// The sections of each.
    pub size: StructSize,
}

/// The number of elements of a list of structs, and their sections in the source and in the copy.
/// No section is longer in the copy than in the source.
#[derive(Clone, Copy)]
pub(in crate::proved::capnp_copies) struct ElementSizes {
    /// The number of elements.
    pub count: u32,
    /// The sections of an element in the source.
    pub source: StructSize,
    /// The sections of an element in the copy.
    pub kept: StructSize,
}

/// Returns the smallest sections to which the `count` structs from word `start` of `bytes` on can
/// be cut, so that each of them loses only zero data words and null pointers. `size` is the
/// sections of each before. Precondition: the structs are inside `bytes`.
///
/// # Preconditions
///
/// ```text
/// requires whole { length bytes.now ≡ 8 * length (words_of bytes.now) }
/// requires inside { start + count * (size.data_words + size.pointers)
///     ≤ length (words_of bytes.now) }
/// ```
pub(in crate::proved::capnp_copies) fn least_widths(
    bytes: &[u8],
    start: u32,
    count: u32,
    size: StructSize,
) -> StructSize {
    let StructSize {
        data_words,
        pointers,
    } = size;
    let mut least_data = 0;
    let mut least_pointers = 0;
    if size.total() > 0 {
        let mut at = start as usize;
        for i in 0..count {
            least_data = max_used_words(bytes, at, data_words, least_data);
            at += usize::from(data_words);
            least_pointers = max_used_words(bytes, at, pointers, least_pointers);
            at += usize::from(pointers);
        }
    }
    StructSize {
        data_words: least_data,
        pointers: least_pointers,
    }
}

/// Returns the greater one of `least` and the number of words up to the last one that isn't zero,
/// of the `n` words from word `at` of `bytes` on. Reads only the words after the first `least`.
///
/// # Preconditions
///
/// ```text
/// requires inside { 8 * (at + n) ≤ length bytes.now }
/// requires whole { length bytes.now ≡ 8 * length (words_of bytes.now) }
/// requires within { least ≤ n }
/// ```
fn max_used_words(bytes: &[u8], at: usize, n: u16, least: u16) -> u16 {
    let beyond = at + usize::from(least);
    least + words::used_words_in(bytes, beyond, usize::from(n - least)) as u16
}
