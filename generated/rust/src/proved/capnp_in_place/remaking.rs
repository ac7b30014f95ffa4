//! Makes lists of structs from the elements of old lists: copies their data words and moves their
//! pointers, element by element.

use crate::proved::capnp_allocation::landing::{pointer_word, segment_length};
use crate::proved::capnp_allocation::making::Shape;
use crate::proved::capnp_allocation::zeroing::{zero_if_inside, zero_pads};
use crate::proved::capnp_arena_traits::arena::{set_word, BuilderArena, WordPlace};
use crate::proved::capnp_in_place::existing::ExistingList;
use crate::proved::capnp_in_place::moving::{transfer_rows, zero_pads_of_rows, PointerRows};
use crate::proved::capnp_in_place::widening::{
    allocate_object, copy_words, point_to_object, Allocation,
};
use crate::proved::capnp_words::error::ErrorKind;
use crate::proved::capnp_words::wire_pointer::{ElementSize, StructSize, WirePointer};

/// The elements of a list as rows: one row of whole words for each element.
#[derive(Clone, Copy)]
pub struct ElementRows {
    /// The segment of the list.
    pub segment: u32,
    /// The position of the list's first word: of its tag if there is one, otherwise of its first
    /// element.
    pub at: u32,
    /// The number of words of the list before its first element: 1 if there is a tag, otherwise 0.
    pub tag: u32,
    /// The number of data words and pointers of each row.
    pub size: StructSize,
    /// The number of rows.
    pub count: u32,
}

/// Copies the first `words` words of each of the `count` rows of `from` over the first `words`
/// words of the same row of `to`.
///
/// # Preconditions
///
/// ```text
/// requires from { from.at + count * from.step ≤ length
///     (segment (A.view arena.old).words from.segment) }
/// requires to { to.at + count * to.step ≤ length (segment (A.view arena.old).words to.segment) }
/// requires apart { from.segment ≡ to.segment → from.at + count * from.step ≤ to.at }
/// requires within { (words ≤ from.step) × (words ≤ to.step) }
/// ```
#[inline]
fn copy_rows<A: BuilderArena>(
    arena: &mut A,
    from: PointerRows,
    to: PointerRows,
    words: u32,
    count: u32,
) {
    if words == 0 {
        return;
    }
    let mut source = from.at;
    let mut place = to.at;
    for i in 0..count {
        let old = WordPlace {
            segment: from.segment,
            at: source,
        };
        let new = WordPlace {
            segment: to.segment,
            at: place,
        };
        copy_words(arena, old, new, words);
        source += from.step;
        place += to.step;
    }
}

/// Allocates words for a list of `count` structs of `size`, and writes the list's tag. The words
/// are in segment `id` if they fit there, otherwise after a word for a landing pad, in any segment
/// in which the arena finds or makes room.
///
/// # Preconditions
///
/// ```text
/// requires there { id < length (A.view arena.old).words }
/// requires few { size.data_words + size.pointers ≡ 0 → count < 2 ^ 30 }
/// requires small { count * (size.data_words + size.pointers) < 2 ^ 29 }
/// ```
#[inline]
pub(in crate::proved::capnp_in_place) fn allocate_struct_list<A: BuilderArena>(
    arena: &mut A,
    id: u32,
    count: u32,
    size: StructSize,
) -> Result<Allocation, ErrorKind> {
    let words = count * size.total();
    let room = allocate_object(arena, id, 1 + words)?;
    let tag = WirePointer::new_tag(count, size);
    set_word(arena, room.segment, room.at + room.pads, tag.0);
    Ok(room)
}

/// Copies the data words of the elements of `old` into the structs of `size` from `first` on, and
/// moves the elements' pointers there. The caller has allocated the structs, all zero.
/// Precondition: no section of an element is larger than in `size`.
///
/// Refuses only if the arena refuses two words for a landing pad. After a refusal, the landing pads
/// that were written for these pointers are zero again.
///
/// # Preconditions
///
/// ```text
/// requires from { RowsInside (A.view arena.old).words old }
/// requires to { first.at + old.count * (size.data_words + size.pointers)
///     ≤ length (segment (A.view arena.old).words first.segment) }
/// requires apart { old.segment ≡ first.segment
///     → old.at + (old.tag + old.count * (old.size.data_words + old.size.pointers)) ≤ first.at }
/// requires data { old.size.data_words ≤ size.data_words }
/// requires pointers { old.size.pointers ≤ size.pointers }
/// ```
fn move_elements<A: BuilderArena>(
    arena: &mut A,
    old: ElementRows,
    first: WordPlace,
    size: StructSize,
) -> Result<(), ErrorKind> {
    let rows = PointerRows {
        segment: old.segment,
        at: old.at + old.tag,
        step: old.size.total(),
    };
    let structs = PointerRows {
        segment: first.segment,
        at: first.at,
        step: size.total(),
    };
    copy_rows(
        arena,
        rows,
        structs,
        u32::from(old.size.data_words),
        old.count,
    );
    let pointers = u32::from(old.size.pointers);
    if pointers == 0 {
        return Ok(());
    }
    let from = PointerRows {
        segment: old.segment,
        at: rows.at + u32::from(old.size.data_words),
        step: rows.step,
    };
    let to = PointerRows {
        segment: first.segment,
        at: first.at + u32::from(size.data_words),
        step: structs.step,
    };
    match transfer_rows(arena, from, to, pointers, old.count) {
        Ok(()) => Ok(()),
        Err(k) => {
            zero_pads_of_rows(arena, from, to, pointers, old.count);
            Err(k)
        }
    }
}

/// Makes a list of structs of `size` from the elements of `old`, which the pointer at `at` of
/// segment `id` leads to.
///
/// If `old` is the list that this pointer leads to, refuses only if the arena refuses the new words
/// or a landing pad, and then leaves the old list unchanged.
///
/// # Preconditions
///
/// ```text
/// requires place { IsPlace (A.view arena.old).words id at }
/// requires wider { CanBecome old size }
/// requires small { old.count * (size.data_words + size.pointers) < 2 ^ 29 }
/// ```
#[inline]
pub(in crate::proved::capnp_in_place) fn widen_rows<A: BuilderArena>(
    arena: &mut A,
    id: u32,
    at: u32,
    old: ElementRows,
    size: StructSize,
) -> Result<ExistingList, ErrorKind> {
    if !are_inside(arena, old) {
        return Err(ErrorKind::MessageContainsOutOfBoundsPointer);
    }
    widen_rows_inside(arena, id, at, old, size)
}

/// Whether the words of `rows` are inside their segment.
#[inline]
fn are_inside<A: BuilderArena>(arena: &A, rows: ElementRows) -> bool {
    let words = u64::from(rows.count) * u64::from(rows.size.total());
    let end = u64::from(rows.at) + (u64::from(rows.tag) + words);
    end <= u64::from(segment_length(arena, rows.segment))
}

/// Makes a list of structs from the elements of `old`, like `widen_rows`. Precondition: the words
/// of `old` are inside their segment.
///
/// # Preconditions
///
/// ```text
/// requires place { IsPlace (A.view arena.old).words id at }
/// requires inside { RowsInside (A.view arena.old).words old }
/// requires wider { CanBecome old size }
/// requires small { old.count * (size.data_words + size.pointers) < 2 ^ 29 }
/// ```
fn widen_rows_inside<A: BuilderArena>(
    arena: &mut A,
    id: u32,
    at: u32,
    old: ElementRows,
    size: StructSize,
) -> Result<ExistingList, ErrorKind> {
    let pointer = pointer_word(arena, id, at);
    let words = old.count * size.total();
    let room = allocate_struct_list(arena, id, old.count, size)?;
    let tag = room.at + room.pads;
    let first = WordPlace {
        segment: room.segment,
        at: tag + 1,
    };
    match move_elements(arena, old, first, size) {
        Ok(()) => {
            let shape = Shape::List(ElementSize::InlineComposite, words);
            point_to_object(arena, id, at, room, shape);
            let step = u64::from(old.size.total());
            let length = u64::from(old.tag) + u64::from(old.count) * step;
            zero_if_inside(arena, old.segment, old.at, length);
            zero_pads(arena, pointer);
            Ok(ExistingList {
                segment: first.segment,
                start: first.at,
                size: ElementSize::InlineComposite,
                struct_size: size,
                count: old.count,
            })
        }
        Err(k) => {
            zero_if_inside(arena, room.segment, tag, 1 + u64::from(words));
            Err(k)
        }
    }
}
