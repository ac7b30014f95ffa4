//! What a search for a list, a text or data finds (encoding specification, "Lists").

use super::places::list_place;
use super::NO_SECTIONS;
use crate::proved::capnp_arena_traits::arena::BuilderArena;
use crate::proved::capnp_in_place::existing::{self, are_inside, ExistingBytes, ExistingList};
use crate::proved::capnp_readers::readers::ListPlace;
use crate::proved::capnp_words::error::ErrorKind;
use crate::proved::capnp_words::wire_pointer::ElementSize;

/// Returns the place of the list `found`. If `found` is `None`, the pointer was null; then returns
/// the place of a list of void without elements in segment `segment`.
#[inline]
pub(in crate::proved::capnp_builders) fn found_list(
    segment: u32,
    found: Option<ExistingList>,
) -> ListPlace {
    match found {
        Some(list) => list_place(list),
        None => ListPlace {
            segment,
            byte: 0,
            size: ElementSize::Void,
            struct_size: NO_SECTIONS,
            count: 0,
        },
    }
}

/// Returns the place of the list that the pointer at `at` of segment `id` leads to; for a null
/// pointer, that of a list of void without elements. Refuses anything but a list, and a list whose
/// elements are narrower than `size`. Changes nothing.
///
/// # Preconditions
///
/// ```text
/// requires place { IsPlace (A.view arena.now).words id at }
/// requires plain { size_number size ≤ 6 }
/// ```
#[inline]
pub(in crate::proved::capnp_builders) fn find_list<A: BuilderArena>(
    arena: &A,
    id: u32,
    at: u32,
    size: ElementSize,
) -> Result<ListPlace, ErrorKind> {
    let found = existing::get_list(arena, id, at, size)?;
    Ok(found_list(id, found))
}

/// Returns where the bytes `found` are. If `found` is `Ok(None)`, the pointer was null; then
/// returns an empty range at the start of segment `segment`. An error in `found` is returned.
///
/// Refuses with `MessageContainsOutOfBoundsPointer` if the bytes are outside of the message. No
/// pointer of a built message leads to such bytes.
///
/// # Preconditions
///
/// ```text
/// requires there { segment < length (A.view arena.now).words }
/// requires named { IfErr found (λ k. is_unfound k ≡ true) }
/// ```
#[inline(always)]
pub(in crate::proved::capnp_builders) fn found_bytes<A: BuilderArena>(
    arena: &A,
    segment: u32,
    found: Result<Option<ExistingBytes>, ErrorKind>,
) -> Result<ExistingBytes, ErrorKind> {
    match found? {
        Some(bytes) => {
            if are_inside(arena, bytes) {
                Ok(bytes)
            } else {
                Err(ErrorKind::MessageContainsOutOfBoundsPointer)
            }
        }
        None => Ok(ExistingBytes {
            segment,
            start: 0,
            length: 0,
        }),
    }
}
