//! Copies the elements of a list of structs (encoding specification, "Lists" and
//! "Canonicalization").

use super::children::copy_children_inline;
use crate::proved::capnp_arena_traits::arena::{copy_words, BuilderArena, ReaderArena, WordPlace};
use crate::proved::capnp_copies::form::Destination;
use crate::proved::capnp_copies::widths::ElementSizes;
use crate::proved::capnp_pointers::object::Place;
use crate::proved::capnp_pointers::pointers::Pointer;
use crate::proved::capnp_words::error::ErrorKind;
use crate::proved::capnp_words::read_limiter::ReadLimiter;
use crate::proved::capnp_words::words::{count, word_range};

/// Copies the elements of a list of structs, which start at `from`, over the zero words from
/// `to.place` on. Cuts each element to the sections `sizes.kept`.
///
/// # Preconditions
///
/// ```text
/// requires room { to.place.at + sizes.count * (sizes.kept.data_words + sizes.kept.pointers)
///     ≤ length (segment (A.view arena.old).words to.place.segment) }
/// requires zero { (i : ℕ) → i < sizes.count * (sizes.kept.data_words + sizes.kept.pointers)
///     → word_at (A.view arena.old).words to.place.segment (to.place.at + i) ≡ 0 }
/// requires inside { from.place.at
///     + sizes.count * (sizes.source.data_words + sizes.source.pointers)
///     ≤ length (segment_read (reading B.ReaderArena from)) }
/// requires less { IsAtMost sizes.kept sizes.source }
/// requires kept { sizes.kept ≡ widths_kept (form_in to.form) (reading B.ReaderArena from)
///     sizes.source sizes.count }
/// ```
#[inline(always)]
pub(in crate::proved::capnp_copies) fn copy_elements<A: BuilderArena, B: ReaderArena>(
    arena: &mut A,
    to: Destination,
    from: Pointer<'_, B>,
    sizes: ElementSizes,
    lim: &mut ReadLimiter,
) -> Result<(), ErrorKind> {
    let source_words = sizes.source.total();
    let kept_words = sizes.kept.total();
    if kept_words == 0 {
        return Ok(());
    }
    let segment = to.place.segment;
    let data_words = usize::from(sizes.kept.data_words);
    let pointers = u32::from(sizes.kept.pointers);
    for i in 0..sizes.count {
        let element = from.place.at + i * source_words;
        let row = to.place.at + i * kept_words;
        let data = word_range(from.place.bytes, element as usize, data_words);
        put_words(arena, segment, row, data);
        let children = Pointer {
            source: from.source,
            place: Place {
                segment: from.place.segment,
                bytes: from.place.bytes,
                at: element + u32::from(sizes.source.data_words),
            },
            nesting_limit: from.nesting_limit,
        };
        let place = WordPlace {
            segment,
            at: row + u32::from(sizes.kept.data_words),
        };
        let form = to.form;
        copy_children_inline(arena, Destination { place, form }, children, pointers, lim)?;
    }
    Ok(())
}

/// Writes `words` over the words of segment `id` from `at` on; nothing if `words` is empty.
/// Preconditions: the length of `words` is a multiple of 8; segment `id` has at least `at`
/// allocated words more than there are in `words`.
///
/// # Preconditions
///
/// ```text
/// requires whole { length words.now ≡ 8 * length (words_of words.now) }
/// requires inside { at + length (words_of words.now)
///     ≤ length (segment (A.view arena.old).words id) }
/// ```
pub fn put_words<A: BuilderArena>(arena: &mut A, id: u32, at: u32, words: &[u8]) {
    if count(words) == 0 {
        return;
    }
    copy_words(arena, id, at, words);
}
