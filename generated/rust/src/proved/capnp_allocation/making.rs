//! Makes a pointer lead to a new object, all zero (encoding specification, "Structs", "Lists" and
//! "Inter-Segment Pointers").
//!
//! If the object fits after the words of its pointer's segment, it is put there. Otherwise it is
//! put after a landing pad of one word, in any segment in which the arena finds room, and the
//! pointer becomes a far pointer.
//!
//! The calls that make an object overwrite the pointer's word, even if the pointer isn't null. So
//! the caller first calls `clear` for such a pointer: that zeroes what the pointer leads to, with
//! all objects below it and their landing pads. These words stay allocated.

use crate::proved::capnp_allocation::zeroing::zero_object;
use crate::proved::capnp_arena_traits::arena::{set_word, BuilderArena, WordPlace};
use crate::proved::capnp_words::error::ErrorKind;
use crate::proved::capnp_words::wire_pointer::{
    data_bits_per_element, offset_between, pointers_per_element, ElementSize, StructSize,
    WirePointer,
};

/// What an object is, according to its pointer.
#[derive(Clone, Copy)]
pub enum Shape {
    /// A struct.
    Struct(StructSize),
    /// A list, with the number that its pointer states: the number of elements, or for a list of
    /// structs the number of words of all elements, without the tag.
    List(ElementSize, u32),
}

/// Returns the word of a pointer that is at `position` of a segment, and leads to an object at
/// `target` of the same segment. Preconditions: the offset from word `position + 1` to word
/// `target` is from -2^29 to 2^29 - 1; the number of a list in `shape` is below 2^29.
///
/// # Preconditions
///
/// ```text
/// requires reaches { Reaches position target }
/// requires few { CountFits shape }
/// ```
#[inline]
pub fn pointer_to(shape: Shape, position: u32, target: u32) -> WirePointer {
    let offset = offset_between(position, target);
    match shape {
        Shape::Struct(size) => WirePointer::new_struct(offset, size),
        Shape::List(size, count) => WirePointer::new_list(offset, size, count),
    }
}

/// Makes an object of `amount` words, all zero, and makes the pointer at `at` of segment `id` lead
/// to it.
///
/// Refuses like `BuilderArena::allocate_anywhere` for `amount + 1` words: the object's and one for
/// a landing pad. A refusal changes nothing, except that `AllocationFailed` adds 1 to the
/// allocator's `refused`.
///
/// # Preconditions
///
/// ```text
/// requires place { IsPlace (A.view arena.old).words id at }
/// requires few { CountFits shape }
/// requires some { AsksWords shape }
/// requires small { amount < 2 ^ 31 }
/// ```
#[inline(always)]
fn make_object<A: BuilderArena>(
    arena: &mut A,
    id: u32,
    at: u32,
    shape: Shape,
    amount: u32,
) -> Result<WordPlace, ErrorKind> {
    match arena.allocate(id, amount) {
        Some(start) => {
            let word = pointer_to(shape, at, start);
            set_word(arena, id, at, word.0);
            Ok(WordPlace {
                segment: id,
                at: start,
            })
        }
        None => make_far_object(arena, id, at, shape, amount),
    }
}

/// Makes a landing pad, and after it an object of `amount` words, all zero, in a segment in which
/// the arena finds room for both. Makes the pointer at `at` of segment `id` lead to the object.
///
/// Refuses like `BuilderArena::allocate_anywhere` for `amount + 1` words: the object's and one for
/// a landing pad. A refusal changes nothing, except that `AllocationFailed` adds 1 to the
/// allocator's `refused`.
///
/// # Preconditions
///
/// ```text
/// requires place { IsPlace (A.view arena.old).words id at }
/// requires few { CountFits shape }
/// requires small { amount < 2 ^ 31 }
/// ```
#[inline(always)]
fn make_far_object<A: BuilderArena>(
    arena: &mut A,
    id: u32,
    at: u32,
    shape: Shape,
    amount: u32,
) -> Result<WordPlace, ErrorKind> {
    // No `?`: it would make building lists and trees of structs slower (docs/SPEED.md).
    match arena.allocate_anywhere(amount + 1) {
        Ok((segment, pad)) => {
            let word = pointer_to(shape, pad, pad + 1);
            set_word(arena, segment, pad, word.0);
            set_word(arena, id, at, WirePointer::new_far(pad, segment).0);
            Ok(WordPlace {
                segment,
                at: pad + 1,
            })
        }
        Err(k) => Err(k),
    }
}

/// Makes the pointer at `at` of segment `id` null, and zeroes what it led to: its object, all
/// objects below that, and their landing pads. Precondition: word `at` of segment `id` is
/// allocated.
///
/// # Preconditions
///
/// ```text
/// requires place { IsPlace (A.view arena.old).words id at }
/// ```
#[inline]
pub fn clear<A: BuilderArena>(arena: &mut A, id: u32, at: u32) {
    zero_object(arena, id, at);
}

/// Makes a struct, all zero, and makes the pointer at `at` of segment `id` lead to it. A struct
/// without sections takes no words. Precondition: word `at` of segment `id` is allocated.
///
/// Refuses like `BuilderArena::allocate_anywhere` for the struct's words and one for a landing pad.
/// A refusal changes nothing, except that `AllocationFailed` adds 1 to the allocator's `refused`.
///
/// # Preconditions
///
/// ```text
/// requires place { IsPlace (A.view arena.old).words id at }
/// ```
#[inline(always)]
pub fn make_struct<A: BuilderArena>(
    arena: &mut A,
    id: u32,
    at: u32,
    size: StructSize,
) -> Result<WordPlace, ErrorKind> {
    let words = size.total();
    if words == 0 {
        set_word(arena, id, at, WirePointer::empty_struct().0);
        return Ok(WordPlace { segment: id, at });
    }
    make_object(arena, id, at, Shape::Struct(size), words)
}

/// Makes a list of `count` elements that aren't structs, all zero or null, and makes the pointer at
/// `at` of segment `id` lead to it. Preconditions: word `at` of segment `id` is allocated; `count`
/// is below 2^29; `size` isn't `InlineComposite`.
///
/// Refuses like `BuilderArena::allocate_anywhere` for the list's words and one for a landing pad. A
/// refusal changes nothing, except that `AllocationFailed` adds 1 to the allocator's `refused`.
///
/// # Preconditions
///
/// ```text
/// requires place { IsPlace (A.view arena.old).words id at }
/// requires few { count < 2 ^ 29 }
/// requires plain { size_number size ≤ 6 }
/// ```
#[inline(always)]
pub fn make_list<A: BuilderArena>(
    arena: &mut A,
    id: u32,
    at: u32,
    size: ElementSize,
    count: u32,
) -> Result<WordPlace, ErrorKind> {
    let words = words_of_list(size, count);
    make_object(arena, id, at, Shape::List(size, count), words)
}

/// The number of words of a list of `count` elements that aren't structs.
///
/// # Preconditions
///
/// ```text
/// requires few { count < 2 ^ 29 }
/// requires plain { size_number size ≤ 6 }
/// ```
#[inline]
fn words_of_list(size: ElementSize, count: u32) -> u32 {
    if size == ElementSize::Pointer {
        return count;
    }
    (u64::from(data_bits_per_element(size)) * u64::from(count)).div_ceil(64) as u32
}

/// Makes a list of `count` structs, all zero, and makes the pointer at `at` of segment `id` lead to
/// it. The first word of the list is the tag. Preconditions: word `at` of segment `id` is
/// allocated; `count` is below 2^30; `count` structs of `size` have fewer than 2^29 words.
///
/// Refuses like `BuilderArena::allocate_anywhere` for the list's words, its tag included, and one
/// for a landing pad. A refusal changes nothing, except that `AllocationFailed` adds 1 to the
/// allocator's `refused`.
///
/// # Preconditions
///
/// ```text
/// requires place { IsPlace (A.view arena.old).words id at }
/// requires few { count < 2 ^ 30 }
/// requires words { count * (size.data_words + size.pointers) < 2 ^ 29 }
/// ```
#[inline]
pub fn make_struct_list<A: BuilderArena>(
    arena: &mut A,
    id: u32,
    at: u32,
    count: u32,
    size: StructSize,
) -> Result<WordPlace, ErrorKind> {
    let words = count * size.total();
    let shape = Shape::List(ElementSize::InlineComposite, words);
    let start = make_object(arena, id, at, shape, 1 + words)?;
    let tag = WirePointer::new_tag(count, size);
    set_word(arena, start.segment, start.at, tag.0);
    Ok(start)
}
