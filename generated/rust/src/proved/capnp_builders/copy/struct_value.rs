//! Copies a struct that a `StructReader` reads (encoding specification, "Structs" and
//! "Canonicalization").

use crate::proved::capnp_allocation::making::make_struct;
use crate::proved::capnp_arena_traits::arena::{BuilderArena, ReaderArena, WordPlace};
use crate::proved::capnp_builders::section::{kept_words, write_section};
use crate::proved::capnp_copies::copy::{clear_if_refused, copy_children};
use crate::proved::capnp_copies::form::{CopyForm, Destination};
use crate::proved::capnp_pointers::pointers::Pointer;
use crate::proved::capnp_readers::readers::StructReader;
use crate::proved::capnp_words::error::ErrorKind;
use crate::proved::capnp_words::read_limiter::ReadLimiter;
use crate::proved::capnp_words::wire_pointer::StructSize;
use crate::proved::capnp_words::words::used_words_in;

/// Copies the struct `value` to the null pointer at `to`, in canonical form if `canonicalize`,
/// otherwise plain. Pads the struct's data section with zeros to whole words. Charges `lim` what
/// reading the values of the struct's pointers costs, and nothing for the struct's own words.
/// Precondition: the word at `to` is allocated and zero.
///
/// If the whole copy fits the pointer's segment, or the message has one segment afterwards, the
/// copy follows the segment's old words, in the canonical order of objects. Of the old words only
/// the pointer changes.
///
/// Refusals: those of reading the values; `CannotCreateACanonicalMessageWithACapability` for a
/// capability if `canonicalize`; the arena's `AllocationFailed` and `MessageTooLarge`, which occur
/// only if the copy doesn't fit after the segment's words; `MessageTooLarge(n)`, where n is the
/// number of data words to copy, if n is above 65535, and then nothing is charged. After a refusal
/// the pointer is null, the words that were allocated are zero, and what was charged to `lim` stays
/// charged.
///
/// # Preconditions
///
/// ```text
/// requires { IsNullPlace (A.view arena.old).words to.segment to.at }
/// ```
#[inline]
pub fn copy_struct_value<A: BuilderArena, B: ReaderArena>(
    arena: &mut A,
    to: WordPlace,
    value: StructReader<'_, B>,
    lim: &mut ReadLimiter,
    canonicalize: bool,
) -> Result<(), ErrorKind> {
    let kept = kept_sections(value, canonicalize)?;
    let start = make_struct(arena, to.segment, to.at, kept)?;
    let data_words = kept.data_words;
    write_section(arena, start, value.content, value.bits, data_words);
    let children = Pointer {
        source: value.source,
        place: value.pointers,
        nesting_limit: value.nesting_limit,
    };
    let place = WordPlace {
        segment: start.segment,
        at: start.at + u32::from(data_words),
    };
    let pointers = u32::from(kept.pointers);
    let form = CopyForm::of(canonicalize);
    let copied = copy_children(arena, Destination { place, form }, children, pointers, lim);
    clear_if_refused(arena, to, copied)
}

/// The sections of `value` that a copy keeps: in plain form all words, in canonical form the words
/// of each section up to the last one that isn't zero.
///
/// Refuses with `MessageTooLarge(n)`, where n is the number of these data words, if a struct can't
/// have that many.
#[inline]
fn kept_sections<B: ReaderArena>(
    value: StructReader<'_, B>,
    canonicalize: bool,
) -> Result<StructSize, ErrorKind> {
    let data_words = kept_words(value.content, value.bits, canonicalize);
    if data_words > usize::from(u16::MAX) {
        return Err(ErrorKind::MessageTooLarge(data_words));
    }
    let mut pointers = value.pointer_count;
    if canonicalize {
        let at = value.pointers.at as usize;
        pointers = used_words_in(value.pointers.bytes, at, usize::from(pointers)) as u16;
    }
    Ok(StructSize {
        data_words: data_words as u16,
        pointers,
    })
}
