//! The structs and lists that pointers of a struct lead to, opened for writing.

use crate::proved::capnp_arena_traits::arena::BuilderArena;
use crate::proved::capnp_builders::builders::PointerBuilder;
use crate::proved::capnp_builders::fields;
use crate::proved::capnp_readers::readers::{ListPlace, StructPlace};
use crate::proved::capnp_words::error::ErrorKind;
use crate::proved::capnp_words::wire_pointer::{ElementSize, StructSize};

/// Returns the struct that pointer `index` leads to, for writing, with sections at least as large
/// as in `size`. If a section is too small, moves the struct to new words, and fills its sections
/// up with zeros and null pointers. If the pointer is null, makes a new struct of `size`, all zero.
/// Preconditions: `place` is inside the message; `index` is below `place.pointers`.
///
/// Refusals: `MessageContainsNonStructPointerWhereStructPointerWasExpected` if the pointer leads to
/// something other than a struct. If no segment has room for the new struct, or for a landing pad:
/// `AllocationFailed` if memory runs out; `MessageTooLarge(usize::MAX)` if the message already has
/// 4,294,967,295 segments. After a refusal the pointer leads to what it led to before.
///
/// # Preconditions
///
/// ```text
/// requires inside { IsStructPlace (A.view arena.old).words place }
/// requires field { index < place.pointers }
/// ```
#[inline]
pub fn get_struct<A: BuilderArena>(
    arena: &mut A,
    place: StructPlace,
    index: usize,
    size: StructSize,
) -> Result<StructPlace, ErrorKind> {
    let at = place.pointers_at + index as u32;
    let mut pointer = PointerBuilder {
        arena,
        segment: place.segment,
        at,
    };
    pointer.get_struct_place(size, None)
}

/// Returns the list that pointer `index` leads to, for writing, as a list of structs with sections
/// at least as large as in `size`. A list of structs that are too small, and a list of numbers or
/// pointers, is moved to new words, as a list of structs with sections of that size. If the pointer
/// is null, returns a list without elements, and changes nothing. Preconditions: `place` is inside
/// the message; `index` is below `place.pointers`.
///
/// Refusals: `ExistingPointerIsNotAList` if the pointer leads to something other than a list;
/// `FoundBitListWhereStructListWasExpected` for a list of bits; `MessageTooLarge(n)` if the new
/// elements would have n words, and n is 2^29 or more. If no segment has room for the new list, or
/// for a landing pad: `AllocationFailed` if memory runs out; `MessageTooLarge(n)` if n is above
/// 536,870,911, where n is the number of the new elements' words, plus two for the tag and a
/// landing pad; `MessageTooLarge(usize::MAX)` if the message already has 4,294,967,295 segments.
/// After a refusal the pointer leads to what it led to before.
///
/// # Preconditions
///
/// ```text
/// requires inside { IsStructPlace (A.view arena.old).words place }
/// requires field { index < place.pointers }
/// ```
#[inline]
pub fn get_struct_list<A: BuilderArena>(
    arena: &mut A,
    place: StructPlace,
    index: usize,
    size: StructSize,
) -> Result<ListPlace, ErrorKind> {
    let at = place.pointers_at + index as u32;
    let mut pointer = PointerBuilder {
        arena,
        segment: place.segment,
        at,
    };
    pointer.get_struct_list_place(size, None)
}

/// Returns the list that pointer `index` leads to, for writing. Changes nothing. If the pointer is
/// null, returns a list without elements. The elements may be wider than `size`, and may be structs
/// that begin with such an element. Preconditions: `place` is inside the message; `index` is below
/// `place.pointers`; `size` isn't `InlineComposite`.
///
/// Refusals: `ExistingPointerIsNotAList` if the pointer leads to something other than a list;
/// `ExistingListValueIsIncompatibleWithExpectedType` if the elements are narrower than `size`;
/// `FoundStructListWhereBitListWasExpected` for structs if `size` is `Bit`.
///
/// # Preconditions
///
/// ```text
/// requires inside { IsStructPlace (A.view arena.now).words place }
/// requires field { index < place.pointers }
/// requires plain { size_number size ≤ 6 }
/// ```
#[inline]
pub fn get_list<A: BuilderArena>(
    arena: &A,
    place: StructPlace,
    index: usize,
    size: ElementSize,
) -> Result<ListPlace, ErrorKind> {
    fields::get_list(arena, place, index, size)
}
