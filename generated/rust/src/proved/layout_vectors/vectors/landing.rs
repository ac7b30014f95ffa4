//! Finds where the pointers of a message lead (encoding specification, "Inter-Segment Pointers").
//! The audit has to find what a builder has done wrong, so this code is separate from the code that
//! builds messages, and trusts no landing pad.

use crate::proved::capnp_arena::arena::ReaderArena;
use crate::proved::capnp_words::wire_pointer::{WirePointer, WirePointerKind};
use crate::proved::capnp_words::words;

/// Where a pointer leads, with its landing pads read.
#[derive(Clone, Copy)]
pub(in crate::proved::layout_vectors) struct PointerTarget {
    /// The word that describes the object: the pointer itself, its landing pad, or the second word
    /// of a double-far pointer's pad.
    pub(in crate::proved::layout_vectors) word: WirePointer,
    /// The segment of the object.
    pub(in crate::proved::layout_vectors) segment: u32,
    /// The position where the object starts, in words.
    pub(in crate::proved::layout_vectors) start: u32,
    /// The number of words of the landing pad: 0, 1 or 2.
    pub(in crate::proved::layout_vectors) pads: u32,
}

/// The bytes of segment `id`; none if there is no such segment.
fn segment_bytes<A: ReaderArena>(arena: &A, id: u32) -> &[u8] {
    arena.get_segment(id).unwrap_or(&[])
}

/// The number of words of segment `id`; 0 if there is no such segment.
pub(in crate::proved::layout_vectors) fn segment_length<A: ReaderArena>(arena: &A, id: u32) -> u32 {
    (segment_bytes(arena, id).len() / 8) as u32
}

/// The word at `at` of segment `id`; zero if there is no such word.
pub(in crate::proved::layout_vectors) fn pointer_word<A: ReaderArena>(
    arena: &A,
    id: u32,
    at: u32,
) -> WirePointer {
    let bytes = segment_bytes(arena, id);
    if at as usize >= bytes.len() / 8 {
        return WirePointer::null();
    }
    WirePointer(words::word_at(bytes, at as usize))
}

/// Whether there is a segment `id`.
fn has_segment<A: ReaderArena>(arena: &A, id: u32) -> bool {
    arena.get_segment(id).is_ok()
}

/// Where the pointer at `at` of segment `id` leads; `None` if it leads nowhere. The caller passes a
/// pointer that isn't null.
pub(in crate::proved::layout_vectors) fn follow<A: ReaderArena>(
    arena: &A,
    id: u32,
    at: u32,
) -> Option<PointerTarget> {
    let word = pointer_word(arena, id, at);
    if word.kind() == WirePointerKind::Far {
        follow_far(arena, word)
    } else {
        follow_near(arena, id, at, word, 0)
    }
}

/// Where `word`, at `at` of segment `id`, leads as a near pointer; `None` if it leads out of the
/// segment. `pads` is the number of words of the landing pad: 1 if `word` is itself a landing pad,
/// otherwise 0.
fn follow_near<A: ReaderArena>(
    arena: &A,
    id: u32,
    at: u32,
    word: WirePointer,
    pads: u32,
) -> Option<PointerTarget> {
    let start = word.target(at, segment_length(arena, id))?;
    Some(PointerTarget {
        word,
        segment: id,
        start,
        pads,
    })
}

/// Where the far pointer `word` leads, by its landing pad of one or two words. `None` if the pad
/// isn't inside its segment, or the pad's last word, which describes the object, is itself a far
/// pointer. Also `None` if a pad of one word leads out of its segment, or a pad of two words names
/// a segment that doesn't exist. The position in the named segment isn't checked here.
fn follow_far<A: ReaderArena>(arena: &A, word: WirePointer) -> Option<PointerTarget> {
    if word.is_double_far() {
        follow_double_far(arena, word)
    } else {
        follow_single_far(arena, word)
    }
}

/// Where the far pointer `word`, to a landing pad of one word, leads, like `follow_far`.
fn follow_single_far<A: ReaderArena>(arena: &A, word: WirePointer) -> Option<PointerTarget> {
    let id = word.far_segment_id();
    let at = word.far_position_in_segment();
    if at >= segment_length(arena, id) {
        return None;
    }
    let pad = pointer_word(arena, id, at);
    if pad.kind() == WirePointerKind::Far {
        return None;
    }
    follow_near(arena, id, at, pad, 1)
}

/// Where the far pointer `word`, to a landing pad of two words, leads, like `follow_far`.
fn follow_double_far<A: ReaderArena>(arena: &A, word: WirePointer) -> Option<PointerTarget> {
    let id = word.far_segment_id();
    let at = word.far_position_in_segment();
    if at + 1 >= segment_length(arena, id) {
        return None;
    }
    let pad = pointer_word(arena, id, at);
    let tag = pointer_word(arena, id, at + 1);
    if tag.kind() == WirePointerKind::Far || !has_segment(arena, pad.far_segment_id()) {
        return None;
    }
    Some(PointerTarget {
        word: tag,
        segment: pad.far_segment_id(),
        start: pad.far_position_in_segment(),
        pads: 2,
    })
}
