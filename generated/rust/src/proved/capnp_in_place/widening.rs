//! Widens structs and lists that are smaller than a caller requests: allocates new words for the
//! object, copies its data and moves its pointers there, and only then makes the pointer to the
//! object lead to the new words. Until then the old words are unchanged. After a refusal the new
//! words are zero.

use crate::proved::capnp_allocation::landing::pointer_word;
use crate::proved::capnp_allocation::making::{pointer_to, Shape};
use crate::proved::capnp_allocation::zeroing::{zero_if_inside, zero_pads};
use crate::proved::capnp_arena_traits::arena::{set_word, BuilderArena, WordPlace};
use crate::proved::capnp_in_place::existing::ExistingStruct;
use crate::proved::capnp_in_place::moving::{transfer_row, zero_pads_of_row};
use crate::proved::capnp_words::error::ErrorKind;
use crate::proved::capnp_words::wire_pointer::{StructSize, WirePointer};

/// The words that are allocated for an object and, if it needs one, for its landing pad.
#[derive(Clone, Copy)]
pub struct Allocation {
    /// The segment of the words.
    pub segment: u32,
    /// The position of the first of these words in the segment: of the landing pad if there is one,
    /// otherwise of the object.
    pub at: u32,
    /// The number of words of the landing pad: 0 if the object is in the segment of its pointer,
    /// otherwise 1.
    pub pads: u32,
}

/// Allocates `amount` words for an object whose pointer is in segment `id`: in that segment if they
/// fit there. Otherwise allocates one word more, for a landing pad before the object, in any
/// segment in which the arena finds or makes room.
///
/// # Preconditions
///
/// ```text
/// requires there { id < length (A.view arena.old).words }
/// requires small { amount < 2 ^ 31 }
/// ```
#[inline]
pub(in crate::proved::capnp_in_place) fn allocate_object<A: BuilderArena>(
    arena: &mut A,
    id: u32,
    amount: u32,
) -> Result<Allocation, ErrorKind> {
    match arena.allocate(id, amount) {
        Some(at) => Ok(Allocation {
            segment: id,
            at,
            pads: 0,
        }),
        None => {
            let (segment, at) = arena.allocate_anywhere(amount + 1)?;
            Ok(Allocation {
                segment,
                at,
                pads: 1,
            })
        }
    }
}

/// Copies the `count` words from `from` on over those from `to` on. Most data sections are one
/// word, so a single word is read and written here; any other number of words is copied by one call
/// of the arena.
///
/// # Preconditions
///
/// ```text
/// requires inside { AreBothInside (A.view arena.old).words from to count }
/// requires apart { from.segment ≡ to.segment → from.at + count ≤ to.at }
/// ```
#[inline(always)]
pub(in crate::proved::capnp_in_place) fn copy_words<A: BuilderArena>(
    arena: &mut A,
    from: WordPlace,
    to: WordPlace,
    count: u32,
) {
    if count == 1 {
        let word = pointer_word(arena, from.segment, from.at);
        set_word(arena, to.segment, to.at, word.0);
    } else {
        copy_words_at_once(arena, from, to, count);
    }
}

/// Copies the `count` words from `from` on over those from `to` on, by one call of the arena.
///
/// # Preconditions
///
/// ```text
/// requires { AreBothInside (A.view arena.old).words from to count }
/// ```
#[inline(never)]
fn copy_words_at_once<A: BuilderArena>(arena: &mut A, from: WordPlace, to: WordPlace, count: u32) {
    arena.move_words(from, to, count);
}

/// Makes the pointer at `at` of segment `id` lead to the object `shape` in `room`. Also writes the
/// landing pad, if `room` has one.
///
/// # Preconditions
///
/// ```text
/// requires place { IsPlace (A.view arena.old).words id at }
/// requires inside { room.at + room.pads < length (segment (A.view arena.old).words room.segment) }
/// requires apart { (room.segment ≡ id) → at < room.at }
/// requires near { (room.pads ≡ 0 → room.segment ≡ id) × (room.pads ≤ 1) }
/// requires few { CountFits shape }
/// requires some { AsksWords shape }
/// ```
#[inline(always)]
pub(in crate::proved::capnp_in_place) fn point_to_object<A: BuilderArena>(
    arena: &mut A,
    id: u32,
    at: u32,
    room: Allocation,
    shape: Shape,
) {
    if room.pads == 0 {
        let word = pointer_to(shape, at, room.at);
        set_word(arena, id, at, word.0);
        return;
    }
    let word = pointer_to(shape, room.at, room.at + 1);
    set_word(arena, room.segment, room.at, word.0);
    let far = WirePointer::new_far(room.at, room.segment);
    set_word(arena, id, at, far.0);
}

/// Widens the struct `old`, to which the pointer at `at` of segment `id` leads: moves it to new
/// words, in which each section has the larger one of its sizes in `old` and in `size`.
/// Preconditions: the caller has found `old` at that pointer; at least one section of `old` is
/// smaller than in `size`.
///
/// Refusals: the arena's `AllocationFailed` or `MessageTooLarge`, for the new words or for a
/// landing pad. After a refusal the old struct is unchanged.
///
/// # Preconditions
///
/// ```text
/// requires place { IsPlace (A.view arena.old).words id at }
/// requires inside { IsStructInside (A.view arena.old).words old }
/// requires known { (t : Tree) → IsStored (A.view arena.old).words id at t
///     → struct_in (target (A.view arena.old).words id at) t ≡ Some old }
/// requires narrow { size.data_words ≤ old.size.data_words
///     → size.pointers ≤ old.size.pointers → ⊥ }
/// ```
#[inline]
pub(in crate::proved::capnp_in_place) fn widen_existing<A: BuilderArena>(
    arena: &mut A,
    id: u32,
    at: u32,
    old: ExistingStruct,
    size: StructSize,
) -> Result<ExistingStruct, ErrorKind> {
    let wide = greater_size(old.size, size);
    widen_struct(arena, id, at, old, wide)
}

/// The size in which each section is as large as the larger one of `a` and `b`.
#[inline]
pub(in crate::proved::capnp_in_place) fn greater_size(a: StructSize, b: StructSize) -> StructSize {
    StructSize {
        data_words: greater(a.data_words, b.data_words),
        pointers: greater(a.pointers, b.pointers),
    }
}

/// The greater of two numbers.
#[inline]
fn greater(a: u16, b: u16) -> u16 {
    if a < b {
        b
    } else {
        a
    }
}

/// Whether both sections of `size` are at least as large as those of `wanted`.
#[inline]
pub(in crate::proved::capnp_in_place) fn is_wide_enough(
    size: StructSize,
    wanted: StructSize,
) -> bool {
    wanted.data_words <= size.data_words && wanted.pointers <= size.pointers
}

/// Where the data section of a struct starts.
#[inline(always)]
fn data_place(e: ExistingStruct) -> WordPlace {
    WordPlace {
        segment: e.segment,
        at: e.start,
    }
}

/// Where the pointers of a struct start.
///
/// # Preconditions
///
/// ```text
/// requires { e.start + e.size.data_words < 2 ^ 32 }
/// ```
#[inline(always)]
fn pointers_place(e: ExistingStruct) -> WordPlace {
    WordPlace {
        segment: e.segment,
        at: e.start + u32::from(e.size.data_words),
    }
}

/// Moves the struct `old`, which the pointer at `at` of segment `id` leads to, to new words with
/// the sections of `size`. Precondition: no section of `old` is larger than in `size`.
///
/// # Preconditions
///
/// ```text
/// requires place { IsPlace (A.view arena.old).words id at }
/// requires inside { IsStructInside (A.view arena.old).words old }
/// requires data { old.size.data_words ≤ size.data_words }
/// requires pointers { old.size.pointers ≤ size.pointers }
/// requires some { 0 < size.data_words + size.pointers }
/// ```
fn widen_struct<A: BuilderArena>(
    arena: &mut A,
    id: u32,
    at: u32,
    old: ExistingStruct,
    size: StructSize,
) -> Result<ExistingStruct, ErrorKind> {
    let pointer = pointer_word(arena, id, at);
    let room = allocate_object(arena, id, size.total())?;
    let made = ExistingStruct {
        segment: room.segment,
        start: room.at + room.pads,
        size,
    };
    copy_words(
        arena,
        data_place(old),
        data_place(made),
        u32::from(old.size.data_words),
    );
    let from = pointers_place(old);
    let to = pointers_place(made);
    let count = u32::from(old.size.pointers);
    match transfer_row(arena, from, to, count) {
        Ok(()) => {
            point_to_object(arena, id, at, room, Shape::Struct(size));
            zero_if_inside(arena, old.segment, old.start, u64::from(old.size.total()));
            zero_pads(arena, pointer);
            Ok(made)
        }
        Err(k) => {
            zero_pads_of_row(arena, from, to, count);
            zero_if_inside(arena, made.segment, made.start, u64::from(size.total()));
            Err(k)
        }
    }
}
