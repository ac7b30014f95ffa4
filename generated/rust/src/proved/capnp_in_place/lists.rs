//! Turns lists into lists of structs that have at least a requested size.

use crate::proved::capnp_arena_traits::arena::BuilderArena;
use crate::proved::capnp_in_place::existing::{self, ExistingList};
use crate::proved::capnp_in_place::number_lists::widen_numbers;
use crate::proved::capnp_in_place::remaking::{widen_rows, ElementRows};
use crate::proved::capnp_in_place::widening::{greater_size, is_wide_enough};
use crate::proved::capnp_words::error::ErrorKind;
use crate::proved::capnp_words::wire_pointer::{ElementSize, StructSize};

/// Returns the list that the pointer at `at` of segment `id` leads to, as a list of structs with
/// both sections at least as large as in `size`; `None` if the pointer is null. A list whose
/// elements aren't structs, or have too small a section, is moved to new words. A number becomes
/// the lowest bits of a struct's first data word, and a pointer becomes a struct's first pointer.
/// Each section gets the larger one of its size in `size` and its old size, which is one data word
/// for a number and one pointer for a pointer.
///
/// Precondition: word `at` of segment `id` is allocated.
///
/// Refusals: `ExistingPointerIsNotAList` for anything but a list;
/// `FoundBitListWhereStructListWasExpected` for a list of bits; `MessageTooLarge(n)`, where n is
/// the number of words of the new elements, if n is 2^29 or more; the arena's `AllocationFailed` or
/// `MessageTooLarge`. After a refusal the old list is unchanged.
///
/// # Preconditions
///
/// ```text
/// requires place { IsPlace (A.view arena.old).words id at }
/// ```
#[inline]
pub fn get_struct_list<A: BuilderArena>(
    arena: &mut A,
    id: u32,
    at: u32,
    size: StructSize,
) -> Result<Option<ExistingList>, ErrorKind> {
    match existing::get_list(arena, id, at, ElementSize::Void)? {
        Some(old) => {
            if is_wide_enough_list(old, size) {
                return Ok(Some(old));
            }
            let list = widen_list(arena, id, at, old, size)?;
            Ok(Some(list))
        }
        None => Ok(None),
    }
}

/// Whether `list` is a list of structs whose sections are at least as large as those of `wanted`.
#[inline]
fn is_wide_enough_list(list: ExistingList, wanted: StructSize) -> bool {
    list.size == ElementSize::InlineComposite && is_wide_enough(list.struct_size, wanted)
}

/// Turns the list `old`, to which the pointer at `at` of segment `id` leads, into a list of structs
/// with sections at least as large as in `size`. Refuses a list of bits. Precondition: `old` isn't
/// already such a list of structs.
///
/// # Preconditions
///
/// ```text
/// requires place { IsPlace (A.view arena.old).words id at }
/// requires few { old.count < 2 ^ 30 }
/// requires narrow { size_number old.size ≡ 7 → size.data_words ≤ old.struct_size.data_words
///     → size.pointers ≤ old.struct_size.pointers → ⊥ }
/// ```
#[inline]
fn widen_list<A: BuilderArena>(
    arena: &mut A,
    id: u32,
    at: u32,
    old: ExistingList,
    size: StructSize,
) -> Result<ExistingList, ErrorKind> {
    if old.size == ElementSize::Bit {
        return Err(ErrorKind::FoundBitListWhereStructListWasExpected);
    }
    let wide = greater_size(struct_for(old), size);
    let words = u64::from(old.count) * u64::from(wide.total());
    if words >= 0x2000_0000 {
        return Err(ErrorKind::MessageTooLarge(words as usize));
    }
    match old.size {
        ElementSize::Byte
        | ElementSize::TwoBytes
        | ElementSize::FourBytes
        | ElementSize::EightBytes => widen_numbers(arena, id, at, old, wide),
        _ => widen_rows(arena, id, at, element_rows(old), wide),
    }
}

/// The sections of the smallest struct that holds an element of `list`: one data word for a number,
/// one pointer for a pointer, its own sections for a struct, and no words for void. Never called
/// for a list of bits, which `widen_list` refuses.
#[inline]
fn struct_for(list: ExistingList) -> StructSize {
    match list.size {
        ElementSize::Void => StructSize {
            data_words: 0,
            pointers: 0,
        },
        ElementSize::Pointer => StructSize {
            data_words: 0,
            pointers: 1,
        },
        ElementSize::InlineComposite => list.struct_size,
        _ => StructSize {
            data_words: 1,
            pointers: 0,
        },
    }
}

/// The elements of `list` as rows: one row of whole words for each element, with the sections of
/// the smallest struct that holds it. Never called for a list of numbers, which `widen_numbers`
/// moves, or of bits, which `widen_list` refuses.
#[inline]
fn element_rows(list: ExistingList) -> ElementRows {
    let tag = tag_words(list.size);
    ElementRows {
        segment: list.segment,
        at: list.start.saturating_sub(tag),
        tag,
        size: struct_for(list),
        count: list.count,
    }
}

/// The number of words that a list has before its first element: 1, the tag, for a list of structs;
/// otherwise 0.
#[inline]
fn tag_words(size: ElementSize) -> u32 {
    match size {
        ElementSize::InlineComposite => 1,
        _ => 0,
    }
}
