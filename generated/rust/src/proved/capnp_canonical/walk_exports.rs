//! The functions for C that list the objects of a message.

use crate::proved::capnp_arena::arena::ReaderSegments;
use crate::proved::capnp_canonical::calls::Limits;
use crate::proved::capnp_canonical::frames::message_in;
use crate::proved::capnp_canonical::refusal::Refusal;
use crate::proved::capnp_canonical::segments::lent_message;
use crate::proved::capnp_canonical::words::message_of;
use crate::proved::capnp_walks::walks::{walk_message, WalkedObject};

/// Lists the objects of the message in `segments` in `objects`, and stores their number in `count`.
///
/// # Preconditions
///
/// ```text
/// requires { IsSmall (S.segments segments) }
/// ```
fn walk<S: ReaderSegments>(
    segments: S,
    limits: Limits,
    objects: &mut [WalkedObject],
    count: &mut usize,
) -> u32 {
    let walked = walk_message(segments, limits.options(), objects);
    let found = walked.count as usize;
    *count = found;
    match walked.refused {
        Some(pointer) => Refusal::Layout(pointer.refusal).number(),
        None => {
            if found > objects.len() {
                Refusal::NoRoom(found).number()
            } else {
                0
            }
        }
    }
}

/// Lists the objects of the message whose frame is at the front of `frame`: writes an entry for
/// each struct, list and capability to `objects`, each before those that its own pointers lead to,
/// and stores their number in `count`. Null pointers have no entry, and neither has an element of a
/// list of structs. Reads the message within `nesting` and `words`, like
/// `capnp_canonical_validate`. Takes no memory.
///
/// Answers 0 if all objects are listed; 1 if there are more than `objects` has room for: those that
/// fit are written, and all are counted. If the message isn't sound, the answer is that of
/// `capnp_canonical_validate`; the objects before the broken pointer are listed and counted. If
/// there is no such frame, `count` is 0. Entries of `objects` after the last object are unchanged.
pub fn capnp_canonical_walk(
    frame: &[u8],
    nesting: i32,
    words: u64,
    objects: &mut [WalkedObject],
    count: &mut usize,
) -> u32 {
    match message_in(frame, words) {
        Ok(segments) => walk(segments, Limits { nesting, words }, objects, count),
        Err(refusal) => {
            *count = 0;
            refusal.number()
        }
    }
}

/// Like `capnp_canonical_walk`, for the message of these segments.
pub fn capnp_canonical_segments_walk(
    segments: &[&[u8]],
    nesting: i32,
    words: u64,
    objects: &mut [WalkedObject],
    count: &mut usize,
) -> u32 {
    match lent_message(segments) {
        Ok(lent) => walk(lent, Limits { nesting, words }, objects, count),
        Err(refusal) => {
            *count = 0;
            refusal.number()
        }
    }
}

/// Like `capnp_canonical_walk`, for the message whose only segment has these words.
pub fn capnp_canonical_words_walk(
    bytes: &[u8],
    nesting: i32,
    words: u64,
    objects: &mut [WalkedObject],
    count: &mut usize,
) -> u32 {
    match message_of(bytes) {
        Ok(message) => walk(message, Limits { nesting, words }, objects, count),
        Err(refusal) => {
            *count = 0;
            refusal.number()
        }
    }
}
