//! Turns lists of numbers into lists of structs: each number becomes the lowest bytes of a struct's
//! first data word.

use crate::proved::capnp_allocation::landing::{pointer_word, segment_length};
use crate::proved::capnp_allocation::making::Shape;
use crate::proved::capnp_allocation::zeroing::{zero_if_inside, zero_pads};
use crate::proved::capnp_arena_traits::arena::{set_word, BuilderArena, WordPlace};
use crate::proved::capnp_in_place::existing::ExistingList;
use crate::proved::capnp_in_place::remaking::allocate_struct_list;
use crate::proved::capnp_in_place::widening::point_to_object;
use crate::proved::capnp_words::error::ErrorKind;
use crate::proved::capnp_words::wire_pointer::{data_bits_per_element, ElementSize, StructSize};

/// Turns the list of numbers `old`, which the pointer at `at` of segment `id` leads to, into a list
/// of structs of `size`. Precondition: `size` has at least one data word.
///
/// If `old` is the list that this pointer leads to, refuses only if the arena refuses the new
/// words, and then leaves the old list unchanged.
///
/// # Preconditions
///
/// ```text
/// requires place { IsPlace (A.view arena.old).words id at }
/// requires kind { (2 ≤ size_number old.size) × (size_number old.size ≤ 5) }
/// requires data { 0 < size.data_words }
/// requires small { old.count * (size.data_words + size.pointers) < 2 ^ 29 }
/// ```
#[inline]
pub(in crate::proved::capnp_in_place) fn widen_numbers<A: BuilderArena>(
    arena: &mut A,
    id: u32,
    at: u32,
    old: ExistingList,
    size: StructSize,
) -> Result<ExistingList, ErrorKind> {
    if !are_numbers_inside(arena, old) {
        return Err(ErrorKind::MessageContainsOutOfBoundsPointer);
    }
    widen_numbers_inside(arena, id, at, old, size)
}

/// Whether the words of a list of numbers are inside their segment.
#[inline]
fn are_numbers_inside<A: BuilderArena>(arena: &A, list: ExistingList) -> bool {
    let end = u64::from(list.start) + words_of_numbers(list);
    end <= u64::from(segment_length(arena, list.segment))
}

/// The number of words of a list of numbers.
#[inline]
fn words_of_numbers(list: ExistingList) -> u64 {
    (u64::from(data_bits_per_element(list.size)) * u64::from(list.count)).div_ceil(64)
}

/// Turns the list of numbers `old`, which the pointer at `at` of segment `id` leads to, into a list
/// of structs. Precondition: the words of `old` are inside their segment.
///
/// # Preconditions
///
/// ```text
/// requires place { IsPlace (A.view arena.old).words id at }
/// requires kind { (2 ≤ size_number old.size) × (size_number old.size ≤ 5) }
/// requires inside { NumbersInside (A.view arena.old).words old }
/// requires data { 0 < size.data_words }
/// requires small { old.count * (size.data_words + size.pointers) < 2 ^ 29 }
/// ```
#[inline]
fn widen_numbers_inside<A: BuilderArena>(
    arena: &mut A,
    id: u32,
    at: u32,
    old: ExistingList,
    size: StructSize,
) -> Result<ExistingList, ErrorKind> {
    let pointer = pointer_word(arena, id, at);
    let room = allocate_struct_list(arena, id, old.count, size)?;
    let first = WordPlace {
        segment: room.segment,
        at: room.at + room.pads + 1,
    };
    copy_numbers(arena, old, first, size.total());
    let shape = Shape::List(ElementSize::InlineComposite, old.count * size.total());
    point_to_object(arena, id, at, room, shape);
    zero_if_inside(arena, old.segment, old.start, words_of_numbers(old));
    zero_pads(arena, pointer);
    Ok(ExistingList {
        segment: first.segment,
        start: first.at,
        size: ElementSize::InlineComposite,
        struct_size: size,
        count: old.count,
    })
}

/// Copies each number of `old` into a word of its own: the first number to `to`, each further
/// number to `step` words after the one before.
///
/// # Preconditions
///
/// ```text
/// requires kind { (2 ≤ size_number old.size) × (size_number old.size ≤ 5) }
/// requires inside { NumbersInside (A.view arena.old).words old }
/// requires to { to.at + old.count * step ≤ length (segment (A.view arena.old).words to.segment) }
/// requires apart { old.segment ≡ to.segment
///     → old.start + words_for (size_number old.size) old.count ≤ to.at }
/// requires some { 0 < step }
/// ```
#[inline]
fn copy_numbers<A: BuilderArena>(arena: &mut A, old: ExistingList, to: WordPlace, step: u32) {
    let mut place = to.at;
    for i in 0..old.count {
        let number = number_at(arena, old, i);
        set_word(arena, to.segment, place, number);
        place += step;
    }
}

/// Element `index` of a list of numbers.
///
/// # Preconditions
///
/// ```text
/// requires kind { (2 ≤ size_number list.size) × (size_number list.size ≤ 5) }
/// requires index { index < list.count }
/// requires inside { NumbersInside (A.view arena.now).words list }
/// ```
#[inline]
fn number_at<A: BuilderArena>(arena: &A, list: ExistingList, index: u32) -> u64 {
    let bits = data_bits_per_element(list.size);
    let first = u64::from(bits) * u64::from(index);
    let word = pointer_word(arena, list.segment, list.start + (first / 64) as u32);
    let low = word.0 >> (first % 64);
    if bits < 64 {
        low & ((1 << bits) - 1)
    } else {
        low
    }
}
