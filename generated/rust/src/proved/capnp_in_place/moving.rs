//! Moves pointers: writes pointers at new places, to the objects that the pointers at the old
//! places lead to (encoding specification, "Inter-Segment Pointers").
//!
//! A near pointer becomes a far pointer if its new place is in another segment than its object. Its
//! landing pad is one word after the words of the object's segment if there is room for it,
//! otherwise two words in any segment in which the arena finds or makes room. If the new place is
//! in the object's segment, the pointer stays near. A far pointer and a capability are copied
//! unchanged. The old pointer stays until the caller zeroes it, so until then two pointers lead to
//! one object.

use crate::proved::capnp_allocation::landing::{pointer_word, segment_length};
use crate::proved::capnp_allocation::making::{pointer_to, Shape};
use crate::proved::capnp_allocation::zeroing::zero_pads;
use crate::proved::capnp_arena_traits::arena::{set_word, BuilderArena, WordPlace};
use crate::proved::capnp_words::error::ErrorKind;
use crate::proved::capnp_words::wire_pointer::{WirePointer, WirePointerKind};

/// Replaces the null pointer at `to` by a pointer to the object that the pointer at `from` leads
/// to. Copies a far pointer or a capability unchanged. Writes nothing if the pointer at `from` is
/// null or leads out of its segment. Precondition: the words at `from` and at `to` are allocated.
///
/// Refuses only if the arena refuses two words for a landing pad. A refusal changes no word; if it
/// is `AllocationFailed`, the allocator has counted it.
///
/// # Preconditions
///
/// ```text
/// requires from { IsPlace (A.view arena.old).words from.segment from.at }
/// requires to { IsPlace (A.view arena.old).words to.segment to.at }
/// ```
#[inline(always)]
pub fn transfer_pointer<A: BuilderArena>(
    arena: &mut A,
    from: WordPlace,
    to: WordPlace,
) -> Result<(), ErrorKind> {
    let word = pointer_word(arena, from.segment, from.at);
    if word.is_null() {
        return Ok(());
    }
    if !word.is_positional() {
        set_word(arena, to.segment, to.at, word.0);
        return Ok(());
    }
    match word.target(from.at, segment_length(arena, from.segment)) {
        Some(start) => {
            let object = WordPlace {
                segment: from.segment,
                at: start,
            };
            set_pointer_to(arena, shape_of(word), object, to)
        }
        None => Ok(()),
    }
}

/// The kind and the size of the object that `word` describes. The caller passes a struct pointer or
/// a list pointer.
#[inline]
fn shape_of(word: WirePointer) -> Shape {
    if word.kind() == WirePointerKind::Struct {
        Shape::Struct(word.struct_size())
    } else {
        Shape::List(word.list_element_size(), word.list_element_count())
    }
}

/// Makes the pointer at `to` lead to the object that starts at `object` and has the kind and the
/// size `shape`.
///
/// # Preconditions
///
/// ```text
/// requires to { IsPlace (A.view arena.old).words to.segment to.at }
/// requires there { object.segment < length (A.view arena.old).words }
/// requires inside { object.at ≤ length (segment (A.view arena.old).words object.segment) }
/// requires few { CountFits shape }
/// ```
#[inline(always)]
fn set_pointer_to<A: BuilderArena>(
    arena: &mut A,
    shape: Shape,
    object: WordPlace,
    to: WordPlace,
) -> Result<(), ErrorKind> {
    if object.segment == to.segment {
        let word = near_word(shape, to.at, object.at);
        set_word(arena, to.segment, to.at, word.0);
        return Ok(());
    }
    match arena.allocate(object.segment, 1) {
        Some(pad) => {
            let word = pointer_to(shape, pad, object.at);
            set_word(arena, object.segment, pad, word.0);
            let far = WirePointer::new_far(pad, object.segment);
            set_word(arena, to.segment, to.at, far.0);
            Ok(())
        }
        None => {
            let (segment, pad) = arena.allocate_anywhere(2)?;
            let start = WirePointer::new_far(object.at, object.segment);
            set_word(arena, segment, pad, start.0);
            let tag = tag_of(shape);
            set_word(arena, segment, pad + 1, tag.0);
            let far = WirePointer::new_double_far(pad, segment);
            set_word(arena, to.segment, to.at, far.0);
            Ok(())
        }
    }
}

/// The word of a pointer at `position` of a segment to the object `shape` at `target` of the same
/// segment. If the object is a struct without sections, the word has the offset -1 instead,
/// wherever `target` is.
///
/// # Preconditions
///
/// ```text
/// requires reaches { Reaches position target }
/// requires few { CountFits shape }
/// ```
#[inline]
fn near_word(shape: Shape, position: u32, target: u32) -> WirePointer {
    if is_empty(shape) {
        WirePointer::empty_struct()
    } else {
        pointer_to(shape, position, target)
    }
}

/// Whether `shape` is a struct without sections.
#[inline]
fn is_empty(shape: Shape) -> bool {
    match shape {
        Shape::Struct(size) => size.total() == 0,
        Shape::List(_, _) => false,
    }
}

/// The second word of a double-far pointer's landing pad: it describes the object `shape`, and has
/// the offset 0.
///
/// # Preconditions
///
/// ```text
/// requires few { CountFits shape }
/// ```
#[inline]
fn tag_of(shape: Shape) -> WirePointer {
    match shape {
        Shape::Struct(size) => WirePointer::new_struct(0, size),
        Shape::List(size, count) => WirePointer::new_list(0, size, count),
    }
}

/// Replaces the `count` consecutive null pointers from `to` on by pointers to the objects that the
/// `count` pointers from `from` on lead to. Preconditions: segment `from.segment` has at least
/// `from.at + count` allocated words; segment `to.segment` has at least `to.at + count`.
///
/// Refuses only if the arena refuses two words for a landing pad. The pointers before the refused
/// one, and their landing pads, are then already written.
///
/// # Preconditions
///
/// ```text
/// requires { AreBothInside (A.view arena.old).words from to count }
/// ```
#[inline(always)]
pub fn transfer_row<A: BuilderArena>(
    arena: &mut A,
    from: WordPlace,
    to: WordPlace,
    count: u32,
) -> Result<(), ErrorKind> {
    if from.segment == to.segment {
        transfer_each(arena, from, to, count)
    } else {
        transfer_row_across(arena, from, to, count)
    }
}

/// Does what `transfer_row` does, if `to` is in another segment than `from`. Not inlined, because this
/// is rare: most objects stay in their segment.
///
/// # Preconditions
///
/// ```text
/// requires { AreBothInside (A.view arena.old).words from to count }
/// ```
#[cold]
#[inline(never)]
fn transfer_row_across<A: BuilderArena>(
    arena: &mut A,
    from: WordPlace,
    to: WordPlace,
    count: u32,
) -> Result<(), ErrorKind> {
    transfer_each(arena, from, to, count)
}

/// Does what `transfer_row` does, one pointer after the other. Inlined once for moves within a segment,
/// in which no pointer becomes far, and once for moves into another segment.
///
/// # Preconditions
///
/// ```text
/// requires { AreBothInside (A.view arena.old).words from to count }
/// ```
#[inline(always)]
fn transfer_each<A: BuilderArena>(
    arena: &mut A,
    from: WordPlace,
    to: WordPlace,
    count: u32,
) -> Result<(), ErrorKind> {
    for i in 0..count {
        let source = WordPlace {
            segment: from.segment,
            at: from.at + i,
        };
        let place = WordPlace {
            segment: to.segment,
            at: to.at + i,
        };
        transfer_pointer(arena, source, place)?;
    }
    Ok(())
}

/// Zeroes the landing pads that `transfer_row` wrote when it moved `count` pointers from `from` to
/// `to`. Preconditions: segment `from.segment` has at least `from.at + count` allocated words;
/// segment `to.segment` has at least `to.at + count`.
///
/// # Preconditions
///
/// ```text
/// requires { AreBothInside (A.view arena.old).words from to count }
/// ```
#[cold]
#[inline(never)]
pub fn zero_pads_of_row<A: BuilderArena>(
    arena: &mut A,
    from: WordPlace,
    to: WordPlace,
    count: u32,
) {
    for i in 0..count {
        zero_pads_of_pointer(arena, from.segment, from.at + i, to.segment, to.at + i);
    }
}

/// Zeroes the landing pads that `transfer_pointer` wrote when it moved the pointer at `at` of segment
/// `id` to `to_at` of segment `to_id`. If `transfer_pointer` copied the pointer unchanged, the pads
/// belong to the old pointer, and stay.
#[inline]
fn zero_pads_of_pointer<A: BuilderArena>(arena: &mut A, id: u32, at: u32, to_id: u32, to_at: u32) {
    if pointer_word(arena, id, at).kind() != WirePointerKind::Far {
        let word = pointer_word(arena, to_id, to_at);
        zero_pads(arena, word);
    }
}

/// Rows of consecutive pointers, one row every `step` words.
#[derive(Clone, Copy)]
pub struct PointerRows {
    /// The segment that the rows are in.
    pub segment: u32,
    /// Where the first pointer of the first row is.
    pub at: u32,
    /// The number of words from one row to the next.
    pub step: u32,
}

/// Replaces the null pointers in the first `count` rows of `to`, `pointers` pointers in each row,
/// by pointers to the objects that the pointers in the same rows of `from` lead to. Precondition:
/// for `from` and for `to`, `step` is below 2^18, and `at + count * step + pointers` is at most
/// `step` more than the number of allocated words of the segment.
///
/// Refuses only if the arena refuses two words for a landing pad. The pointers before the refused
/// one, and their landing pads, are then already written.
///
/// # Preconditions
///
/// ```text
/// requires { AreRowsInside (A.view arena.old).words from to pointers count }
/// ```
#[inline]
pub fn transfer_rows<A: BuilderArena>(
    arena: &mut A,
    from: PointerRows,
    to: PointerRows,
    pointers: u32,
    count: u32,
) -> Result<(), ErrorKind> {
    let mut source = from.at;
    let mut place = to.at;
    for i in 0..count {
        let old = WordPlace {
            segment: from.segment,
            at: source,
        };
        let new = WordPlace {
            segment: to.segment,
            at: place,
        };
        transfer_row(arena, old, new, pointers)?;
        source += from.step;
        place += to.step;
    }
    Ok(())
}

/// Zeroes the landing pads that `transfer_rows` wrote when it moved the pointers of `count` rows,
/// `pointers` pointers in each row. Precondition: for `from` and for `to`, `step` is below 2^18,
/// and `at + count * step + pointers` is at most `step` more than the number of allocated words of
/// the segment.
///
/// # Preconditions
///
/// ```text
/// requires { AreRowsInside (A.view arena.old).words from to pointers count }
/// ```
#[inline]
pub fn zero_pads_of_rows<A: BuilderArena>(
    arena: &mut A,
    from: PointerRows,
    to: PointerRows,
    pointers: u32,
    count: u32,
) {
    let mut source = from.at;
    let mut place = to.at;
    for i in 0..count {
        let old = WordPlace {
            segment: from.segment,
            at: source,
        };
        let new = WordPlace {
            segment: to.segment,
            at: place,
        };
        zero_pads_of_row(arena, old, new, pointers);
        source += from.step;
        place += to.step;
    }
}
