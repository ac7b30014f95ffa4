//! Copies consecutive pointers.

use super::flat::copy_primitive_list;
use super::places::place_past;
use super::structs::copy_struct;
use crate::proved::capnp_arena_traits::arena::{BuilderArena, ReaderArena, WordPlace};
use crate::proved::capnp_copies::form::{CopyForm, Destination};
use crate::proved::capnp_pointers::object::{Place, PointerWord};
use crate::proved::capnp_pointers::pointers::Pointer;
use crate::proved::capnp_words::error::ErrorKind;
use crate::proved::capnp_words::read_limiter::ReadLimiter;
use crate::proved::capnp_words::wire_pointer::{
    is_primitive_list, words_for_elements, WirePointer, WirePointerKind,
};
use crate::proved::capnp_words::words::word_range;

/// Copies the values of `count` consecutive pointers, from `from` on, to the `count` null pointers
/// from `to.place` on. Preconditions: the segment of `from` has at least `from.place.at + count`
/// words; the segment of `to.place` has at least `to.place.at + count` allocated words; the `count`
/// words from `to.place` on are zero.
///
/// # Preconditions
///
/// ```text
/// requires { HasNullsFor (reading B.ReaderArena from) count
///     (A.view arena.old).words to.place.segment to.place.at }
/// ```
#[inline(always)]
pub fn copy_children<A: BuilderArena, B: ReaderArena>(
    arena: &mut A,
    to: Destination,
    from: Pointer<'_, B>,
    count: u32,
    lim: &mut ReadLimiter,
) -> Result<(), ErrorKind> {
    if count == 0 {
        return Ok(());
    }
    copy_children_out_of_line(arena, to.place, from, count, lim, to.form)
}

/// Like `copy_children`, but not inlined, because it is called for each level of structs. Takes the
/// place and the form of a `Destination` separately, so that they are passed in registers.
///
/// # Preconditions
///
/// ```text
/// requires { HasNullsFor (reading B.ReaderArena from) count
///     (A.view arena.old).words to.segment to.at }
/// ```
#[inline(never)]
fn copy_children_out_of_line<A: BuilderArena, B: ReaderArena>(
    arena: &mut A,
    to: WordPlace,
    from: Pointer<'_, B>,
    count: u32,
    lim: &mut ReadLimiter,
    form: CopyForm,
) -> Result<(), ErrorKind> {
    let to = Destination { place: to, form };
    copy_children_inline(arena, to, from, count, lim)
}

/// Like `copy_children`, but inlined into the loops over lists. So a pointer that is null, or leads
/// to a list of bits or numbers, is copied without a call, and each list inside a list takes the
/// stack of only one more call.
///
/// # Preconditions
///
/// ```text
/// requires { HasNullsFor (reading B.ReaderArena from) count
///     (A.view arena.old).words to.place.segment to.place.at }
/// ```
#[inline(always)]
pub(in crate::proved::capnp_copies) fn copy_children_inline<A: BuilderArena, B: ReaderArena>(
    arena: &mut A,
    to: Destination,
    from: Pointer<'_, B>,
    count: u32,
    lim: &mut ReadLimiter,
) -> Result<(), ErrorKind> {
    for i in 0..count {
        let child = from.past(i);
        let place = place_past(to.place, i);
        let form = to.form;
        copy_child(arena, Destination { place, form }, child, lim)?;
    }
    Ok(())
}

/// Copies the value of `from` to the null pointer at `to.place`. If `from` isn't a far pointer, and
/// leads to a struct or to a list of bits or numbers, uses only the word of `from`, and makes no
/// `Object`, which would have to be written to memory.
///
/// # Preconditions
///
/// ```text
/// requires { IsNullPlace (A.view arena.old).words to.place.segment to.place.at }
/// ```
#[inline(always)]
fn copy_child<A: BuilderArena, B: ReaderArena>(
    arena: &mut A,
    to: Destination,
    from: Pointer<'_, B>,
    lim: &mut ReadLimiter,
) -> Result<(), ErrorKind> {
    let word = from.place.word();
    if word.is_null() {
        return Ok(());
    }
    if is_near_primitive_list(word) {
        return copy_near_primitive_list(arena, to.place, from, word, lim);
    }
    if word.kind() == WirePointerKind::Struct {
        copy_near_struct(arena, to, from, word, lim)
    } else {
        super::copy_object(arena, to.place, from, lim, to.form)
    }
}

/// Copies the struct that `from` leads to. Precondition: `word` is the word of `from`, and a struct
/// pointer.
///
/// # Preconditions
///
/// ```text
/// requires place { IsNullPlace (A.view arena.old).words to.place.segment to.place.at }
/// requires word { IsPointerRead (reading B.ReaderArena from) word.0 }
/// requires is_struct { kind word.0 ≡ 0 }
/// ```
#[inline(always)]
fn copy_near_struct<A: BuilderArena, B: ReaderArena>(
    arena: &mut A,
    to: Destination,
    from: Pointer<'_, B>,
    word: WirePointer,
    lim: &mut ReadLimiter,
) -> Result<(), ErrorKind> {
    let pointer = PointerWord {
        place: from.place,
        word,
        nesting_limit: from.nesting_limit,
    };
    let at = from.source.read_near_struct(pointer, lim)?;
    let start = Place { at, ..from.place };
    let inner = from.inside(start);
    copy_struct(arena, to, inner, word.struct_size(), lim)
}

/// Copies the list of bits or numbers that `from` leads to. The copy is the same in every form.
/// Precondition: `word` is the word of `from`, and a pointer to a list of bits or numbers.
///
/// # Preconditions
///
/// ```text
/// requires place { IsNullPlace (A.view arena.old).words to.segment to.at }
/// requires word { IsPointerRead (reading B.ReaderArena from) word.0 }
/// requires is_list { kind word.0 ≡ 1 }
/// requires of_bits { (0 < element_size word.0) × (element_size word.0 ≤ 5) }
/// ```
#[inline(always)]
fn copy_near_primitive_list<A: BuilderArena, B: ReaderArena>(
    arena: &mut A,
    to: WordPlace,
    from: Pointer<'_, B>,
    word: WirePointer,
    lim: &mut ReadLimiter,
) -> Result<(), ErrorKind> {
    let size = word.list_element_size();
    let count = word.list_element_count();
    let words = words_for_elements(size, count);
    let source = from.source;
    let pointer = PointerWord {
        place: from.place,
        word,
        nesting_limit: from.nesting_limit,
    };
    let start = source.read_near_primitive_list(pointer, words, lim)?;
    let elements = word_range(from.place.bytes, start as usize, words as usize);
    copy_primitive_list(arena, to, size, count, elements)
}

/// Whether `word` is a pointer to a list of bits or numbers, and not a far pointer.
fn is_near_primitive_list(word: WirePointer) -> bool {
    word.kind() == WirePointerKind::List && is_primitive_list(word)
}
