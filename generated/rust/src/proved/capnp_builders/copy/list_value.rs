//! Copies a list that a `ListReader` reads (encoding specification, "Lists" and
//! "Canonicalization").

use crate::proved::capnp_arena_traits::arena::{BuilderArena, ReaderArena, WordPlace};
use crate::proved::capnp_copies::copy::{
    clear_if_refused, copy_pointer_list, copy_primitive_list, copy_struct_list,
};
use crate::proved::capnp_copies::form::{CopyForm, Destination};
use crate::proved::capnp_copies::widths::StructList;
use crate::proved::capnp_pointers::pointers::Pointer;
use crate::proved::capnp_readers::readers::ListReader;
use crate::proved::capnp_words::error::ErrorKind;
use crate::proved::capnp_words::read_limiter::ReadLimiter;
use crate::proved::capnp_words::wire_pointer::{ElementSize, StructSize};

/// Copies the list `value` to the null pointer at `to`, in canonical form if `canonicalize`,
/// otherwise plain. In both forms, zeros follow the last number of a list of numbers. Charges `lim`
/// what reading the values of the list's pointers costs, and nothing for the list's own words or
/// its number of elements.
///
/// Precondition: the word at `to` is allocated and zero.
///
/// If all words of the copy fit the pointer's segment, or the message has one segment afterwards,
/// they follow the old words of the pointer's segment, in the canonical order of objects, and of
/// the old words only the pointer changes.
///
/// Refusals: those of reading the values; `CannotCreateACanonicalMessageWithACapability` for a
/// capability if `canonicalize`; the arena's `AllocationFailed` or `MessageTooLarge`, only if the
/// copy doesn't fit after the words of the pointer's segment; `MessageTooLarge(usize::MAX)` if the
/// list has more elements or words than a list pointer can state, which no list in a message has.
/// After a refusal the pointer is null, the words that were allocated are zero, and what was
/// charged to `lim` stays charged.
///
/// # Preconditions
///
/// ```text
/// requires { IsNullPlace (A.view arena.old).words to.segment to.at }
/// ```
pub fn copy_list<A: BuilderArena, B: ReaderArena>(
    arena: &mut A,
    to: WordPlace,
    value: ListReader<'_, B>,
    lim: &mut ReadLimiter,
    canonicalize: bool,
) -> Result<(), ErrorKind> {
    let count = value.count;
    if !fits_list_pointer(value.element_size, value.struct_size, count) {
        return Err(ErrorKind::MessageTooLarge(usize::MAX));
    }
    let first = Pointer {
        source: value.source,
        place: value.start,
        nesting_limit: value.nesting_limit,
    };
    let form = CopyForm::of(canonicalize);
    let list = Destination { place: to, form };
    match value.element_size {
        ElementSize::InlineComposite => {
            let size = value.struct_size;
            let copied = copy_struct_list(arena, list, first, StructList { count, size }, lim);
            clear_if_refused(arena, to, copied)
        }
        ElementSize::Pointer => {
            let copied = copy_pointer_list(arena, list, first, count, lim);
            clear_if_refused(arena, to, copied)
        }
        size => copy_primitive_list(arena, to, size, count, value.content),
    }
}

/// Whether a list pointer, and for structs also the tag, can state a list of `count` elements.
#[inline]
fn fits_list_pointer(size: ElementSize, sections: StructSize, count: u32) -> bool {
    match size {
        ElementSize::InlineComposite => {
            let words = u64::from(count) * u64::from(sections.total());
            count < 1 << 30 && words < 1 << 29
        }
        _ => count < 1 << 29,
    }
}
