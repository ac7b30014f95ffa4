//! Copies lists of pointers and of structs (encoding specification, "Lists" and
//! "Canonicalization").

use super::children::copy_children_inline;
use super::elements::copy_elements;
use crate::proved::capnp_allocation::making::{make_list, make_struct_list};
use crate::proved::capnp_arena_traits::arena::{BuilderArena, ReaderArena, WordPlace};
use crate::proved::capnp_copies::form::{CopyForm, Destination};
use crate::proved::capnp_copies::widths::{least_widths, ElementSizes, StructList};
use crate::proved::capnp_pointers::pointers::Pointer;
use crate::proved::capnp_words::error::ErrorKind;
use crate::proved::capnp_words::read_limiter::ReadLimiter;
use crate::proved::capnp_words::wire_pointer::{ElementSize, StructSize};

/// Copies the list of pointers whose elements are the `count` pointers from `from` on. Makes the
/// null pointer at `to.place` lead to the copy. Preconditions: the word at `to.place` is allocated
/// and zero; `count` is below 2^29; the segment of `from` has at least `from.place.at + count`
/// words.
///
/// # Preconditions
///
/// ```text
/// requires place { IsNullPlace (A.view arena.old).words to.place.segment to.place.at }
/// requires few { count < 2 ^ 29 }
/// requires inside { from.place.at + count ≤ length (segment_read (reading B.ReaderArena from)) }
/// ```
#[inline(always)]
pub fn copy_pointer_list<A: BuilderArena, B: ReaderArena>(
    arena: &mut A,
    to: Destination,
    from: Pointer<'_, B>,
    count: u32,
    lim: &mut ReadLimiter,
) -> Result<(), ErrorKind> {
    let WordPlace { segment, at } = to.place;
    let start = make_list(arena, segment, at, ElementSize::Pointer, count)?;
    let elements = Destination {
        place: start,
        form: to.form,
    };
    copy_children_inline(arena, elements, from, count, lim)
}

/// Copies the list of structs `list`, whose first element starts at `from`, to the null pointer at
/// `to.place`. In canonical form, the elements of the copy have the smallest sections with which
/// each element loses only zero words and null pointers. Preconditions: the word at `to.place` is
/// allocated and zero; `list.count` is below 2^30; the structs of `list` have fewer than 2^29
/// words; the segment of `from` has all of these from `from` on.
///
/// # Preconditions
///
/// ```text
/// requires place { IsNullPlace (A.view arena.old).words to.place.segment to.place.at }
/// requires few { list.count < 2 ^ 30 }
/// requires words { list.count * (list.size.data_words + list.size.pointers) < 2 ^ 29 }
/// requires inside { from.place.at + list.count * (list.size.data_words + list.size.pointers)
///     ≤ length (segment_read (reading B.ReaderArena from)) }
/// ```
#[inline(always)]
pub fn copy_struct_list<A: BuilderArena, B: ReaderArena>(
    arena: &mut A,
    to: Destination,
    from: Pointer<'_, B>,
    list: StructList,
    lim: &mut ReadLimiter,
) -> Result<(), ErrorKind> {
    let WordPlace { segment, at } = to.place;
    let form = to.form;
    let StructList { count, size } = list;
    let kept = kept_widths(from, size, count, form);
    let made = make_struct_list(arena, segment, at, count, kept)?;
    let place = WordPlace {
        segment: made.segment,
        at: made.at + 1,
    };
    let sizes = ElementSizes {
        count,
        source: size,
        kept,
    };
    copy_elements(arena, Destination { place, form }, from, sizes, lim)
}

/// The sections that a copy keeps of each of the `count` structs from `from` on: in plain form all
/// of `size`, in canonical form the smallest with which each struct loses only zero words and null
/// pointers.
///
/// # Preconditions
///
/// ```text
/// requires inside { from.place.at + count * (size.data_words + size.pointers)
///     ≤ length (segment_read (reading B.ReaderArena from)) }
/// ```
fn kept_widths<B: ReaderArena>(
    from: Pointer<'_, B>,
    size: StructSize,
    count: u32,
    form: CopyForm,
) -> StructSize {
    match form {
        CopyForm::Canonical => least_widths(from.place.bytes, from.place.at, count, size),
        CopyForm::Plain | CopyForm::OfDefault => size,
    }
}
