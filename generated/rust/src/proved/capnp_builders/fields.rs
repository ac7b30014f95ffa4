//! Sets fields of structs and elements of lists at their places. Each call borrows the message only
//! while it runs, so that a program can go on at another place (encoding specification, "Structs"
//! and "Lists").
//!
//! A call states what it does to the value of the struct at its place. Its clauses hold for each
//! pointer that may lead to the struct, and for any data words and children (`HasStruct`).

use crate::proved::capnp_arena_traits::arena::BuilderArena;
use crate::proved::capnp_builders::builders::found::find_list;
use crate::proved::capnp_builders::builders::{list_builder, NO_SECTIONS};
use crate::proved::capnp_in_place::{bytes, initializing, numbers};
use crate::proved::capnp_readers::readers::{ListPlace, StructPlace};
use crate::proved::capnp_words::error::ErrorKind;
use crate::proved::capnp_words::primitive::Primitive;
use crate::proved::capnp_words::wire_pointer::{ElementSize, StructSize};
use crate::proved::capnp_words::zero::Zero;

/// Makes the root pointer lead to a new struct, all zero, and returns the struct's place.
/// Precondition: word 0 of segment 0 is allocated.
///
/// Refusals, if no segment has room: `AllocationFailed` if memory runs out;
/// `MessageTooLarge(usize::MAX)` if the message already has 4,294,967,295 segments. After a refusal
/// the pointer is null.
///
/// # Preconditions
///
/// ```text
/// requires { IsPlace (A.view arena.old).words 0 0 }
/// ```
#[inline]
pub fn init_root<A: BuilderArena>(
    arena: &mut A,
    size: StructSize,
) -> Result<StructPlace, ErrorKind> {
    new_struct(arena, 0, 0, size)
}

/// Writes the field of the data section at `offset`, counted in values of `T`. Preconditions:
/// `place` is inside the message and aligned; the field at `offset` is inside the data section.
///
/// # Preconditions
///
/// ```text
/// requires aligned { IsAligned place }
/// requires inside { IsStructPlace (A.view arena.old).words place }
/// requires field { IsInside place.bits (8 * T.BYTES) offset }
/// ```
#[inline]
pub fn set_number<A: BuilderArena, T: Primitive + Zero>(
    arena: &mut A,
    place: StructPlace,
    offset: usize,
    value: T,
) {
    write_number(arena, place, offset, value);
}

/// Writes bit `offset` of the data section. Preconditions: `place` is inside the message; bit
/// `offset` is inside the data section.
///
/// # Preconditions
///
/// ```text
/// requires inside { IsStructPlace (A.view arena.old).words place }
/// requires field { offset < place.bits }
/// ```
#[inline]
pub fn set_bool<A: BuilderArena>(arena: &mut A, place: StructPlace, offset: usize, value: bool) {
    write_bit(arena, place, offset, value);
}

/// Makes pointer `index` of the pointer section lead to a new text: the bytes of `text`, followed
/// by a zero byte. Preconditions: `place` is inside the message; `index` is below `place.pointers`;
/// `text` has fewer than 2^29 - 1 bytes.
///
/// Refusals, if no segment has room: `AllocationFailed` if memory runs out;
/// `MessageTooLarge(usize::MAX)` if the message already has 4,294,967,295 segments. After a refusal
/// the pointer is null.
///
/// # Preconditions
///
/// ```text
/// requires inside { IsStructPlace (A.view arena.old).words place }
/// requires field { index < place.pointers }
/// requires few { length text.now + 1 < 2 ^ 29 }
/// ```
#[inline]
pub fn set_text<A: BuilderArena>(
    arena: &mut A,
    place: StructPlace,
    index: usize,
    text: &[u8],
) -> Result<(), ErrorKind> {
    bytes::set_text(arena, place.segment, place.pointers_at + index as u32, text)
}

/// Makes pointer `index` of the pointer section lead to new data, the bytes of `contents`.
/// Preconditions: `place` is inside the message; `index` is below `place.pointers`; `contents` has
/// fewer than 2^29 bytes.
///
/// Refusals, if no segment has room: `AllocationFailed` if memory runs out;
/// `MessageTooLarge(usize::MAX)` if the message already has 4,294,967,295 segments. After a refusal
/// the pointer is null.
///
/// # Preconditions
///
/// ```text
/// requires inside { IsStructPlace (A.view arena.old).words place }
/// requires field { index < place.pointers }
/// requires few { length contents.now < 2 ^ 29 }
/// ```
#[inline]
pub fn set_data<A: BuilderArena>(
    arena: &mut A,
    place: StructPlace,
    index: usize,
    contents: &[u8],
) -> Result<(), ErrorKind> {
    bytes::set_data(
        arena,
        place.segment,
        place.pointers_at + index as u32,
        contents,
    )
}

/// Makes pointer `index` of the pointer section lead to a new struct, all zero, and returns the
/// struct's place. Preconditions: `place` is inside the message; `index` is below `place.pointers`.
///
/// Refusals, if no segment has room: `AllocationFailed` if memory runs out;
/// `MessageTooLarge(usize::MAX)` if the message already has 4,294,967,295 segments. After a refusal
/// the pointer is null.
///
/// # Preconditions
///
/// ```text
/// requires inside { IsStructPlace (A.view arena.old).words place }
/// requires field { index < place.pointers }
/// ```
#[inline]
pub fn init_struct<A: BuilderArena>(
    arena: &mut A,
    place: StructPlace,
    index: usize,
    size: StructSize,
) -> Result<StructPlace, ErrorKind> {
    new_struct(arena, place.segment, place.pointers_at + index as u32, size)
}

/// Makes pointer `index` of the pointer section lead to a new list of `count` elements that aren't
/// structs, all zero or null, and returns the list's place. Preconditions: `place` is inside the
/// message; `index` is below `place.pointers`; `size` isn't `InlineComposite`; `count` is below
/// 2^29.
///
/// Refusals, if no segment has room: `AllocationFailed` if memory runs out; `MessageTooLarge(n)` if
/// n is above 536,870,911, where n is the number of the list's words, plus one for a landing pad;
/// `MessageTooLarge(usize::MAX)` if the message already has 4,294,967,295 segments. After a refusal
/// the pointer is null.
///
/// # Preconditions
///
/// ```text
/// requires inside { IsStructPlace (A.view arena.old).words place }
/// requires field { index < place.pointers }
/// requires few { count < 2 ^ 29 }
/// requires plain { size_number size ≤ 6 }
/// ```
#[inline]
pub fn init_list<A: BuilderArena>(
    arena: &mut A,
    place: StructPlace,
    index: usize,
    size: ElementSize,
    count: u32,
) -> Result<ListPlace, ErrorKind> {
    new_list(
        arena,
        place.segment,
        place.pointers_at + index as u32,
        size,
        count,
    )
}

/// Makes pointer `index` of the pointer section lead to a new list of `count` structs, all zero,
/// and returns the list's place. `builders::element_place` says where each of the structs is.
/// Preconditions: `place` is inside the message; `index` is below `place.pointers`; `count` is
/// below 2^30; `count` structs of `size` have fewer than 2^29 words.
///
/// Refusals, if no segment has room: `AllocationFailed` if memory runs out; `MessageTooLarge(n)` if
/// n is above 536,870,911, where n is the number of the structs' words, plus two for the tag and a
/// landing pad; `MessageTooLarge(usize::MAX)` if the message already has 4,294,967,295 segments.
/// After a refusal the pointer is null.
///
/// # Preconditions
///
/// ```text
/// requires inside { IsStructPlace (A.view arena.old).words place }
/// requires field { index < place.pointers }
/// requires few { count < 2 ^ 30 }
/// requires words { count * (size.data_words + size.pointers) < 2 ^ 29 }
/// ```
#[inline]
pub fn init_struct_list<A: BuilderArena>(
    arena: &mut A,
    place: StructPlace,
    index: usize,
    count: u32,
    size: StructSize,
) -> Result<ListPlace, ErrorKind> {
    new_struct_list(
        arena,
        place.segment,
        place.pointers_at + index as u32,
        count,
        size,
    )
}

/// Returns the list that pointer `index` of the pointer section leads to. Changes nothing. If the
/// pointer is null, returns a list of void without elements. The elements may be wider than `size`,
/// and may be structs that begin with such an element. Preconditions: `place` is inside the
/// message; `index` is below `place.pointers`; `size` isn't `InlineComposite`.
///
/// Refusals: `ExistingPointerIsNotAList` if the pointer leads to something other than a list;
/// `ExistingListValueIsIncompatibleWithExpectedType` if the elements are narrower than `size`;
/// `FoundStructListWhereBitListWasExpected` for structs if `size` is `Bit`.
///
/// # Preconditions
///
/// ```text
/// requires inside { IsStructPlace (A.view arena.now).words place }
/// requires field { index < place.pointers }
/// requires plain { size_number size ≤ 6 }
/// ```
#[inline]
pub fn get_list<A: BuilderArena>(
    arena: &A,
    place: StructPlace,
    index: usize,
    size: ElementSize,
) -> Result<ListPlace, ErrorKind> {
    find_list(arena, place.segment, place.pointers_at + index as u32, size)
}

/// Writes element `index` of a list of numbers that are as wide as `T`. Preconditions: `list` is
/// inside the message; the elements are numbers as wide as `T`; `index` is below `list.count`.
///
/// # Preconditions
///
/// ```text
/// requires inside { IsListPlace (A.view arena.old).words list }
/// requires range { index < list.count }
/// requires width { element_bits (size_number list.size) ≡ 8 * T.BYTES }
/// ```
#[inline]
pub fn set_element<A: BuilderArena, T: Primitive>(
    arena: &mut A,
    list: ListPlace,
    index: u32,
    value: T,
) {
    list_builder::write_number(arena, list, index, value);
}

/// Does what `set_number` does, and says which words it leaves.
///
/// # Preconditions
///
/// ```text
/// requires aligned { IsAligned place }
/// requires inside { IsStructPlace (A.view arena.old).words place }
/// requires field { IsInside place.bits (8 * T.BYTES) offset }
/// ```
#[inline]
pub(in crate::proved::capnp_builders) fn write_number<A: BuilderArena, T: Primitive + Zero>(
    arena: &mut A,
    place: StructPlace,
    offset: usize,
    value: T,
) {
    let byte = place.byte + (offset * T::BYTES) as u64;
    numbers::set_number(arena, place.segment, byte, value);
}

/// Does what `set_bool` does, and says which words it leaves.
///
/// # Preconditions
///
/// ```text
/// requires inside { IsStructPlace (A.view arena.old).words place }
/// requires field { offset < place.bits }
/// ```
#[inline]
pub(in crate::proved::capnp_builders) fn write_bit<A: BuilderArena>(
    arena: &mut A,
    place: StructPlace,
    offset: usize,
    value: bool,
) {
    let bit = 8 * place.byte + offset as u64;
    numbers::set_bit(arena, place.segment, bit, value);
}

/// Makes the pointer at `at` of segment `id` lead to a new struct, all zero.
///
/// # Preconditions
///
/// ```text
/// requires { IsPlace (A.view arena.old).words id at }
/// ```
#[inline(always)]
pub(in crate::proved::capnp_builders) fn new_struct<A: BuilderArena>(
    arena: &mut A,
    id: u32,
    at: u32,
    size: StructSize,
) -> Result<StructPlace, ErrorKind> {
    // No `?`: it would make callers that pass the place on slower (docs/SPEED.md).
    match initializing::init_struct(arena, id, at, size) {
        Ok(start) => Ok(StructPlace {
            segment: start.segment,
            byte: 8 * u64::from(start.at),
            bits: 64 * u32::from(size.data_words),
            pointers_at: start.at + u32::from(size.data_words),
            pointers: size.pointers,
        }),
        Err(k) => Err(k),
    }
}

/// Makes the pointer at `at` of segment `id` lead to a new list of `count` elements that aren't
/// structs, all zero or null.
///
/// # Preconditions
///
/// ```text
/// requires place { IsPlace (A.view arena.old).words id at }
/// requires few { count < 2 ^ 29 }
/// requires plain { size_number size ≤ 6 }
/// ```
#[inline(always)]
pub(in crate::proved::capnp_builders) fn new_list<A: BuilderArena>(
    arena: &mut A,
    id: u32,
    at: u32,
    size: ElementSize,
    count: u32,
) -> Result<ListPlace, ErrorKind> {
    let start = initializing::init_list(arena, id, at, size, count)?;
    Ok(ListPlace {
        segment: start.segment,
        byte: 8 * u64::from(start.at),
        size,
        struct_size: NO_SECTIONS,
        count,
    })
}

/// Makes the pointer at `at` of segment `id` lead to a new list of `count` structs, all zero.
///
/// # Preconditions
///
/// ```text
/// requires place { IsPlace (A.view arena.old).words id at }
/// requires few { count < 2 ^ 30 }
/// requires words { count * (size.data_words + size.pointers) < 2 ^ 29 }
/// ```
#[inline]
pub(in crate::proved::capnp_builders) fn new_struct_list<A: BuilderArena>(
    arena: &mut A,
    id: u32,
    at: u32,
    count: u32,
    size: StructSize,
) -> Result<ListPlace, ErrorKind> {
    let start = initializing::init_struct_list(arena, id, at, count, size)?;
    Ok(ListPlace {
        segment: start.segment,
        byte: 8 * (u64::from(start.at) + 1),
        size: ElementSize::InlineComposite,
        struct_size: size,
        count,
    })
}
