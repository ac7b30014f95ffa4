//! Zeroes what a pointer leads to: its object, all objects below that, and their landing pads.

use crate::proved::capnp_allocation::landing::{
    follow, pointer_word, segment_length, PointerTarget,
};
use crate::proved::capnp_arena_traits::arena::{set_word, zero_words, BuilderArena};
use crate::proved::capnp_words::wire_pointer::{
    data_bits_per_element, ElementSize, StructSize, WirePointer, WirePointerKind,
};

/// Zeroes the `n` words of segment `id` from `start` on. Changes nothing unless all of them are
/// inside the segment. Precondition: `n` is below 2^63.
///
/// # Preconditions
///
/// ```text
/// requires { n < 2 ^ 63 }
/// ```
#[inline]
pub fn zero_if_inside<A: BuilderArena>(arena: &mut A, id: u32, start: u32, n: u64) {
    if is_nonempty_inside(arena, id, start, n) {
        zero_words(arena, id, start, n as u32);
    }
}

/// Whether the `n` words from `start` on are inside segment `id`, and `n` isn't 0.
///
/// # Preconditions
///
/// ```text
/// requires { n < 2 ^ 63 }
/// ```
#[inline]
fn is_nonempty_inside<A: BuilderArena>(arena: &A, id: u32, start: u32, n: u64) -> bool {
    n > 0 && u64::from(start) + n <= u64::from(segment_length(arena, id))
}

/// Zeroes the landing pads of `word`, if it is a far pointer. Changes nothing if the pads aren't
/// inside their segment.
#[inline]
pub fn zero_pads<A: BuilderArena>(arena: &mut A, word: WirePointer) {
    if word.kind() == WirePointerKind::Far {
        zero_far_pads(arena, word);
    }
}

/// Zeroes the landing pads of the far pointer `word`. Not inlined, because most pointers aren't
/// far.
///
/// # Preconditions
///
/// ```text
/// requires { kind word.0 ≡ 2 }
/// ```
#[cold]
#[inline(never)]
fn zero_far_pads<A: BuilderArena>(arena: &mut A, word: WirePointer) {
    let words = if word.is_double_far() { 2 } else { 1 };
    zero_if_inside(
        arena,
        word.far_segment_id(),
        word.far_position_in_segment(),
        words,
    );
}

/// Zeroes the pointer at `at` of segment `id` and what it leads to: its object, all objects below
/// that, and their landing pads. If the pointer doesn't lead to a value in which no word is used
/// twice, may zero any words, but writes only zeros. In a message that a builder made, this can't
/// happen.
///
/// Precondition: word `at` of segment `id` is allocated.
///
/// # Preconditions
///
/// ```text
/// requires { IsPlace (A.view arena.old).words id at }
/// ```
#[inline(always)]
pub fn zero_object<A: BuilderArena>(arena: &mut A, id: u32, at: u32) {
    let word = WirePointer(arena.get_word(id, at));
    if word.is_null() {
        return;
    }
    let landing = follow(arena, id, at);
    set_word(arena, id, at, 0);
    match landing {
        Some(landing) => {
            zero_target(arena, landing);
            zero_pads(arena, word);
        }
        None => {}
    }
}

/// Zeroes the object at `landing` and all objects below it, if together they are a value in which
/// no word is used twice. Otherwise may zero any words, but writes only zeros.
#[cold]
#[inline(never)]
fn zero_target<A: BuilderArena>(arena: &mut A, landing: PointerTarget) {
    let PointerTarget {
        word,
        segment: id,
        start,
        pads: _,
    } = landing;
    match word.kind() {
        WirePointerKind::Struct => zero_struct(arena, id, start, word.struct_size()),
        WirePointerKind::List => {
            let count = word.list_element_count();
            match word.list_element_size() {
                ElementSize::InlineComposite => zero_struct_list(arena, id, start),
                ElementSize::Pointer => zero_pointers(arena, id, start, count),
                size => {
                    let bits = u64::from(data_bits_per_element(size)) * u64::from(count);
                    zero_if_inside(arena, id, start, bits.div_ceil(64));
                }
            }
        }
        WirePointerKind::Far | WirePointerKind::Other => {}
    }
}

/// Zeroes the struct that starts at `start` of segment `id`, and all objects below it, if its
/// pointers lead to values, and no word is used twice. Otherwise may zero any words, but writes
/// only zeros.
#[inline]
fn zero_struct<A: BuilderArena>(arena: &mut A, id: u32, start: u32, size: StructSize) {
    let pointers = u64::from(start) + u64::from(size.data_words);
    if pointers + u64::from(size.pointers) <= u64::from(segment_length(arena, id)) {
        zero_pointers(arena, id, pointers as u32, u32::from(size.pointers));
        zero_if_inside(arena, id, start, u64::from(size.total()));
    }
}

/// Zeroes the `count` consecutive pointers from `start` of segment `id` on, and all objects below
/// them, if the pointers lead to values, and no word is used twice. Otherwise may zero any words,
/// but writes only zeros.
#[inline]
fn zero_pointers<A: BuilderArena>(arena: &mut A, id: u32, start: u32, count: u32) {
    if u64::from(start) + u64::from(count) <= u64::from(segment_length(arena, id)) {
        for i in 0..count {
            zero_object(arena, id, start + i);
        }
    }
}

/// Zeroes the list of structs whose tag is at `start` of segment `id`, and all objects below it, if
/// its pointers lead to values, and no word is used twice. Otherwise may zero any words, but writes
/// only zeros.
#[inline]
fn zero_struct_list<A: BuilderArena>(arena: &mut A, id: u32, start: u32) {
    let tag = pointer_word(arena, id, start);
    let count = tag.inline_composite_list_element_count();
    let size = tag.struct_size();
    let words = 1 + u64::from(count) * u64::from(size.total());
    if u64::from(start) + words <= u64::from(segment_length(arena, id)) {
        zero_elements(arena, id, start + 1, size, count);
        zero_if_inside(arena, id, start, words);
    }
}

/// Zeroes the pointers of `count` consecutive structs, the elements of a list, from `start` of
/// segment `id` on, and all objects below them, if the pointers lead to values, and no word is used
/// twice. Otherwise may zero any words, but writes only zeros.
///
/// # Preconditions
///
/// ```text
/// requires { start + count * (size.data_words + size.pointers)
///     ≤ length (segment (A.view arena.old).words id) }
/// ```
#[inline]
fn zero_elements<A: BuilderArena>(
    arena: &mut A,
    id: u32,
    start: u32,
    size: StructSize,
    count: u32,
) {
    if size.pointers > 0 {
        let mut at = start;
        for i in 0..count {
            at += u32::from(size.data_words);
            zero_pointers(arena, id, at, u32::from(size.pointers));
            at += u32::from(size.pointers);
        }
    }
}
