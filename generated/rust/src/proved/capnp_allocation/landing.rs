//! Where the pointers of a message lead (encoding specification, "Inter-Segment Pointers").

use crate::proved::capnp_arena_traits::arena::BuilderArena;
use crate::proved::capnp_words::wire_pointer::{WirePointer, WirePointerKind};
use crate::proved::capnp_words::words;

/// Where a pointer leads, after any landing pads.
#[derive(Clone, Copy)]
pub struct PointerTarget {
    /// The word that describes the object: the pointer itself, its landing pad, or for a double-far
    /// pointer the second word of its landing pad.
    pub word: WirePointer,
    /// The segment of the object.
    pub segment: u32,
    /// The position where the object starts, in words.
    pub start: u32,
    /// The number of words of the pointer's landing pad: 0 if it has none, otherwise 1 or 2.
    pub pads: u32,
}

/// The number of words of segment `id`; 0 if there is no such segment.
#[inline]
pub fn segment_length<A: BuilderArena>(arena: &A, id: u32) -> u32 {
    match arena.get_segment(id) {
        Ok(bytes) => (bytes.len() / 8) as u32,
        Err(_) => 0,
    }
}

/// The pointer word at `at` of segment `id`; zero if there is no such word.
#[inline]
pub fn pointer_word<A: BuilderArena>(arena: &A, id: u32, at: u32) -> WirePointer {
    match arena.get_segment(id) {
        Ok(bytes) => {
            let at = at as usize;
            if at < bytes.len() / 8 {
                WirePointer(words::word_at(bytes, at))
            } else {
                WirePointer::null()
            }
        }
        Err(_) => WirePointer::null(),
    }
}

/// Where the pointer at `at` of segment `id` leads. The result has no meaning if the pointer is
/// null or leads out of the message. Not inlined, because most of the pointers that are zeroed are
/// null.
#[cold]
#[inline(never)]
pub(in crate::proved::capnp_allocation) fn follow<A: BuilderArena>(
    arena: &A,
    id: u32,
    at: u32,
) -> Option<PointerTarget> {
    follow_word(arena, id, at, pointer_word(arena, id, at))
}

/// Where the pointer at `at` of segment `id` leads. The result has no meaning if the pointer is
/// null or leads out of the message. Precondition: `word` is word `at` of segment `id`, or zero if
/// there is no such word.
///
/// # Preconditions
///
/// ```text
/// requires { word.0 ≡ word_at (A.view arena.now).words id at }
/// ```
#[inline(always)]
pub fn follow_word<A: BuilderArena>(
    arena: &A,
    id: u32,
    at: u32,
    word: WirePointer,
) -> Option<PointerTarget> {
    if word.kind() == WirePointerKind::Far {
        follow_far(arena, word)
    } else {
        follow_near(arena, id, at, word, 0)
    }
}

/// Reads `word`, at `at` of segment `id`, as a pointer that isn't far, and returns where it leads;
/// `None` if it leads out of the segment. `pads` is the number of words of the landing pad that was
/// read before.
#[inline]
fn follow_near<A: BuilderArena>(
    arena: &A,
    id: u32,
    at: u32,
    word: WirePointer,
    pads: u32,
) -> Option<PointerTarget> {
    match word.target(at, segment_length(arena, id)) {
        Some(start) => Some(PointerTarget {
            word,
            segment: id,
            start,
            pads,
        }),
        None => None,
    }
}

/// Where the far pointer `word` leads. The result has no meaning if `word` leads out of the
/// message.
#[cold]
#[inline(never)]
fn follow_far<A: BuilderArena>(arena: &A, word: WirePointer) -> Option<PointerTarget> {
    let id = word.far_segment_id();
    let at = word.far_position_in_segment();
    let pad = pointer_word(arena, id, at);
    if word.is_double_far() {
        let tag = pointer_word(arena, id, at + 1);
        Some(PointerTarget {
            word: tag,
            segment: pad.far_segment_id(),
            start: pad.far_position_in_segment(),
            pads: 2,
        })
    } else {
        follow_near(arena, id, at, pad, 1)
    }
}
