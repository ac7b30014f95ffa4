//! Copies a struct (encoding specification, "Structs" and "Canonicalization").

use super::children::copy_children;
use super::elements::put_words;
use crate::proved::capnp_allocation::making::make_struct;
use crate::proved::capnp_arena_traits::arena::{BuilderArena, ReaderArena, WordPlace};
use crate::proved::capnp_copies::form::{CopyForm, Destination};
use crate::proved::capnp_pointers::object::Place;
use crate::proved::capnp_pointers::pointers::Pointer;
use crate::proved::capnp_words::error::ErrorKind;
use crate::proved::capnp_words::read_limiter::ReadLimiter;
use crate::proved::capnp_words::wire_pointer::StructSize;
use crate::proved::capnp_words::words::{used_words_in, word_range};

/// Copies the struct whose first word is at `from`, with the sections `size`, to the null pointer
/// at `to.place`. In canonical form, drops the zeros and null pointers at the ends of the struct's
/// sections. Preconditions: the word at `to.place` is allocated and zero; the segment of `from` has
/// all words of a struct of `size` from `from` on.
///
/// # Preconditions
///
/// ```text
/// requires place { IsNullPlace (A.view arena.old).words to.place.segment to.place.at }
/// requires inside { from.place.at + (size.data_words + size.pointers)
///     ≤ length (segment_read (reading B.ReaderArena from)) }
/// ```
#[inline(always)]
pub fn copy_struct<A: BuilderArena, B: ReaderArena>(
    arena: &mut A,
    to: Destination,
    from: Pointer<'_, B>,
    size: StructSize,
    lim: &mut ReadLimiter,
) -> Result<(), ErrorKind> {
    let form = to.form;
    let kept = kept_sections(from, size, form);
    let start = make_struct(arena, to.place.segment, to.place.at, kept)?;
    let data_words = usize::from(kept.data_words);
    let data = word_range(from.place.bytes, from.place.at as usize, data_words);
    put_words(arena, start.segment, start.at, data);
    let children = Pointer {
        source: from.source,
        place: Place {
            segment: from.place.segment,
            bytes: from.place.bytes,
            at: from.place.at + u32::from(size.data_words),
        },
        nesting_limit: from.nesting_limit,
    };
    let place = WordPlace {
        segment: start.segment,
        at: start.at + u32::from(kept.data_words),
    };
    let pointers = u32::from(kept.pointers);
    copy_children(arena, Destination { place, form }, children, pointers, lim)
}

/// The sections that a copy keeps of the struct whose first word is at `from`: in plain form all of
/// `size`, in canonical form the words of each section up to the last one that isn't zero.
///
/// # Preconditions
///
/// ```text
/// requires inside { from.place.at + (size.data_words + size.pointers)
///     ≤ length (segment_read (reading B.ReaderArena from)) }
/// ```
#[inline(always)]
fn kept_sections<B: ReaderArena>(
    from: Pointer<'_, B>,
    size: StructSize,
    form: CopyForm,
) -> StructSize {
    match form {
        CopyForm::Canonical => used_sections(from, size),
        CopyForm::Plain | CopyForm::OfDefault => size,
    }
}

/// The used part of each section of the struct whose first word is at `from`: the words up to the
/// last one that isn't zero.
///
/// # Preconditions
///
/// ```text
/// requires inside { from.place.at + (size.data_words + size.pointers)
///     ≤ length (segment_read (reading B.ReaderArena from)) }
/// ```
#[inline(always)]
fn used_sections<B: ReaderArena>(from: Pointer<'_, B>, size: StructSize) -> StructSize {
    let bytes = from.place.bytes;
    let data = from.place.at as usize;
    let pointers = data + usize::from(size.data_words);
    StructSize {
        data_words: used_words_in(bytes, data, usize::from(size.data_words)) as u16,
        pointers: used_words_in(bytes, pointers, usize::from(size.pointers)) as u16,
    }
}
