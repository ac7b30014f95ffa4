//! Marks the words of the object that a pointer leads to.

use crate::proved::capnp_arena::arena::ReaderArena;
use crate::proved::capnp_arena_traits::arena::WordPlace;
use crate::proved::capnp_words::wire_pointer::{
    data_bits_per_element, words_for_elements, ElementSize, WirePointerKind,
};
use crate::proved::capnp_words::words::word_at;
use crate::proved::layout_vectors::vectors::landing::{pointer_word, PointerTarget};
use crate::proved::layout_vectors::vectors::marks::Marks;
use crate::proved::layout_vectors::vectors::pending::{push_element_pointers, push_pointers};
use crate::proved::support::alloc::AllocError;
use crate::proved::support::vec::Vec;

/// Marks the words of the object at `landing`, and appends the places of its pointers to `pending`.
/// Returns `false` if there is no such object, one of its words is marked already, the bits after
/// the last element of a list of numbers aren't zero, or the tag of a list of structs isn't a
/// struct pointer or states another number of words than the pointer to the list.
///
/// # Preconditions
///
/// ```text
/// requires { FitsRows (message (A.segments arena.now)) (rows_of marks.old) }
/// ```
pub(in crate::proved::layout_vectors) fn mark_object<A: ReaderArena>(
    arena: &A,
    marks: &mut Marks,
    pending: &mut Vec<WordPlace>,
    landing: PointerTarget,
) -> Result<bool, AllocError> {
    match landing.word.kind() {
        WirePointerKind::Struct => mark_struct(arena, marks, pending, landing),
        WirePointerKind::List => match landing.word.list_element_size() {
            ElementSize::InlineComposite => mark_struct_list(arena, marks, pending, landing),
            ElementSize::Pointer => mark_pointer_list(arena, marks, pending, landing),
            size => Ok(mark_primitive_list(arena, marks, pending, landing, size)),
        },
        WirePointerKind::Far => Ok(false),
        WirePointerKind::Other => Ok(landing.word.is_capability()),
    }
}

/// Does what `mark_object` does, for a struct (encoding specification, "Structs").
///
/// # Preconditions
///
/// ```text
/// requires fits { FitsRows (message (A.segments arena.now)) (rows_of marks.old) }
/// requires is_struct { kind landing.word.0 ≡ 0 }
/// ```
fn mark_struct<A: ReaderArena>(
    arena: &A,
    marks: &mut Marks,
    pending: &mut Vec<WordPlace>,
    landing: PointerTarget,
) -> Result<bool, AllocError> {
    let size = landing.word.struct_size();
    if !marks.try_mark(landing.segment, landing.start, size.total()) {
        return Ok(false);
    }
    let start = landing.start + u32::from(size.data_words);
    push_pointers(pending, landing.segment, start, u32::from(size.pointers))?;
    Ok(true)
}

/// Does what `mark_object` does, for a list of pointers ("Lists").
///
/// # Preconditions
///
/// ```text
/// requires fits { FitsRows (message (A.segments arena.now)) (rows_of marks.old) }
/// requires of_pointers { (kind landing.word.0 ≡ 1) × (element_size landing.word.0 ≡ 6) }
/// ```
fn mark_pointer_list<A: ReaderArena>(
    arena: &A,
    marks: &mut Marks,
    pending: &mut Vec<WordPlace>,
    landing: PointerTarget,
) -> Result<bool, AllocError> {
    let count = landing.word.list_element_count();
    if !marks.try_mark(landing.segment, landing.start, count) {
        return Ok(false);
    }
    push_pointers(pending, landing.segment, landing.start, count)?;
    Ok(true)
}

/// Does what `mark_object` does, for a list of numbers ("Lists").
///
/// # Preconditions
///
/// ```text
/// requires fits { FitsRows (message (A.segments arena.now)) (rows_of marks.old) }
/// requires is_list { kind landing.word.0 ≡ 1 }
/// requires is_size { size_number size ≡ element_size landing.word.0 }
/// requires is_flat { size_number size ≤ 5 }
/// ```
fn mark_primitive_list<A: ReaderArena>(
    arena: &A,
    marks: &mut Marks,
    pending: &Vec<WordPlace>,
    landing: PointerTarget,
    size: ElementSize,
) -> bool {
    let count = landing.word.list_element_count();
    let words = words_for_elements(size, count);
    marks.try_mark(landing.segment, landing.start, words)
        && has_zero_padding(arena, landing, size, count)
}

/// Whether the bits after the elements of the list of numbers at `landing`, up to the end of the
/// list's last word, are zero. Precondition: the list's words are inside their segment.
///
/// # Preconditions
///
/// ```text
/// requires inside { landing.start + words_for (size_number size) count
///     ≤ length (segment (message (A.segments arena.now)) landing.segment) }
/// requires is_flat { size_number size ≤ 5 }
/// requires few { count < 2 ^ 29 }
/// ```
fn has_zero_padding<A: ReaderArena>(
    arena: &A,
    landing: PointerTarget,
    size: ElementSize,
    count: u32,
) -> bool {
    match arena.get_segment(landing.segment) {
        Ok(bytes) => is_zero_padded(bytes, landing.start, size, count),
        Err(_) => true,
    }
}

/// Whether the bits after the elements of the list of numbers that starts at word `start` of
/// `bytes`, up to the end of the list's last word, are zero. Precondition: the list is inside
/// `bytes`.
///
/// # Preconditions
///
/// ```text
/// requires inside { start + words_for (size_number size) count ≤ length (words_of bytes.now) }
/// requires small { length (words_of bytes.now) < 2 ^ 32 }
/// requires is_flat { size_number size ≤ 5 }
/// requires few { count < 2 ^ 29 }
/// ```
fn is_zero_padded(bytes: &[u8], start: u32, size: ElementSize, count: u32) -> bool {
    let bits = u64::from(count) * u64::from(data_bits_per_element(size));
    let end = start + (bits / 64) as u32;
    let rest = bits % 64;
    if rest == 0 {
        return true;
    }
    if word_at(bytes, end as usize) >> rest == 0 {
        return true;
    }
    false
}

/// Does what `mark_object` does, for a list of structs and its tag ("Lists").
///
/// # Preconditions
///
/// ```text
/// requires fits { FitsRows (message (A.segments arena.now)) (rows_of marks.old) }
/// requires of_structs { (kind landing.word.0 ≡ 1) × (element_size landing.word.0 ≡ 7) }
/// ```
fn mark_struct_list<A: ReaderArena>(
    arena: &A,
    marks: &mut Marks,
    pending: &mut Vec<WordPlace>,
    landing: PointerTarget,
) -> Result<bool, AllocError> {
    let words = landing.word.list_inline_composite_word_count();
    if !marks.try_mark(landing.segment, landing.start, words + 1) {
        return Ok(false);
    }
    let tag = pointer_word(arena, landing.segment, landing.start);
    let size = tag.struct_size();
    let count = tag.inline_composite_list_element_count();
    let taken = u64::from(count) * u64::from(size.total());
    if tag.kind() != WirePointerKind::Struct || taken != u64::from(words) {
        return Ok(false);
    }
    push_element_pointers(pending, landing.segment, landing.start + 1, size, count)?;
    Ok(true)
}
