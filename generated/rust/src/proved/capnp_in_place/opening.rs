//! Opens structs and lists of structs for writing, with at least the requested size (encoding
//! specification, "Structs" and "Lists").

use crate::proved::capnp_allocation::landing::pointer_word;
use crate::proved::capnp_allocation::making::make_struct;
use crate::proved::capnp_arena_traits::arena::{BuilderArena, WordPlace};
use crate::proved::capnp_in_place::existing::{self, ExistingList, ExistingStruct};
use crate::proved::capnp_in_place::lists::get_struct_list;
use crate::proved::capnp_in_place::widening::{is_wide_enough, widen_existing};
use crate::proved::capnp_words::error::ErrorKind;
use crate::proved::capnp_words::wire_pointer::StructSize;

/// Returns the struct that the pointer at `at` of segment `id` leads to, with sections at least as
/// large as in `size`. If the pointer is null, makes a new struct, all zero. If a section is too
/// small, moves the struct to new words. Otherwise the struct is unchanged. Precondition: word `at`
/// of segment `id` is allocated.
///
/// Refusals: `MessageContainsNonStructPointerWhereStructPointerWasExpected` if the pointer leads to
/// something else than a struct, and then nothing changes; the arena's `AllocationFailed` or
/// `MessageTooLarge`, and then the old struct, or the null pointer, is unchanged.
///
/// # Preconditions
///
/// ```text
/// requires place { IsPlace (A.view arena.old).words id at }
/// ```
#[inline(always)]
pub fn open_struct<A: BuilderArena>(
    arena: &mut A,
    id: u32,
    at: u32,
    size: StructSize,
) -> Result<ExistingStruct, ErrorKind> {
    match existing::get_struct(arena, id, at) {
        Some(old) => {
            if is_wide_enough(old.size, size) {
                return Ok(old);
            }
            let start = WordPlace {
                segment: old.segment,
                at: old.start,
            };
            open_narrow_struct(arena, WordPlace { segment: id, at }, start, old.size, size)
        }
        None => {
            if !pointer_word(arena, id, at).is_null() {
                return Err(
                    ErrorKind::MessageContainsNonStructPointerWhereStructPointerWasExpected,
                );
            }
            new_struct(arena, id, at, size)
        }
    }
}

/// Makes the null pointer at `at` of segment `id` lead to a new struct of `size`, all zero.
///
/// # Preconditions
///
/// ```text
/// requires place { IsPlace (A.view arena.old).words id at }
/// requires null { word_at (A.view arena.old).words id at ≡ 0 }
/// ```
#[inline(never)]
fn new_struct<A: BuilderArena>(
    arena: &mut A,
    id: u32,
    at: u32,
    size: StructSize,
) -> Result<ExistingStruct, ErrorKind> {
    let start = make_struct(arena, id, at, size)?;
    Ok(ExistingStruct {
        segment: start.segment,
        start: start.at,
        size,
    })
}

/// Widens the struct at `start`, to which the pointer at `place` leads, like `widen_existing`.
/// `narrow` is the struct's old sections; at least one of them is smaller than in `size`. Takes
/// `start` and `narrow` instead of an `ExistingStruct`, so that they are passed in registers.
///
/// # Preconditions
///
/// ```text
/// requires place { IsPlace (A.view arena.old).words place.segment place.at }
/// requires inside { IsStructInside (A.view arena.old).words (existing_struct start narrow) }
/// requires known { (t : Tree) → IsStored (A.view arena.old).words place.segment place.at t
///     → struct_in (target (A.view arena.old).words place.segment place.at) t
///     ≡ Some (existing_struct start narrow) }
/// requires narrow { size.data_words ≤ narrow.data_words → size.pointers ≤ narrow.pointers → ⊥ }
/// ```
#[inline(never)]
fn open_narrow_struct<A: BuilderArena>(
    arena: &mut A,
    place: WordPlace,
    start: WordPlace,
    narrow: StructSize,
    size: StructSize,
) -> Result<ExistingStruct, ErrorKind> {
    let old = ExistingStruct {
        segment: start.segment,
        start: start.at,
        size: narrow,
    };
    widen_existing(arena, place.segment, place.at, old, size)
}

/// Returns the list that the pointer at `at` of segment `id` leads to, as a list of structs with
/// sections at least as large as in `size`. If the pointer is null, returns `None` and changes
/// nothing. A list of structs that are large enough is unchanged; any other list is turned into a
/// list of structs in new words.
///
/// Precondition: word `at` of segment `id` is allocated.
///
/// Refusals that change nothing: `ExistingPointerIsNotAList` if the pointer leads to something else
/// than a list; `FoundBitListWhereStructListWasExpected` for a list of bits; `MessageTooLarge(n)`,
/// where n is the number of words of the new elements, if n is 2^29 or more. Other refusals are the
/// arena's `AllocationFailed` or `MessageTooLarge`; after these, the old list is unchanged.
///
/// # Preconditions
///
/// ```text
/// requires place { IsPlace (A.view arena.old).words id at }
/// ```
#[inline]
pub fn open_struct_list<A: BuilderArena>(
    arena: &mut A,
    id: u32,
    at: u32,
    size: StructSize,
) -> Result<Option<ExistingList>, ErrorKind> {
    get_struct_list(arena, id, at, size)
}
