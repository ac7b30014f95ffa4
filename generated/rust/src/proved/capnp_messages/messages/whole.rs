//! Makes a canonical copy of a whole message, tests it for canonical form, and measures it, for any
//! type that holds the message's segments.

use super::canonical_copy::{canonicalize_reached, canonicalize_reached_into};
use super::message_fault::canonical_fault;
use super::path::Reached;
use super::root::read_root;
use crate::proved::capnp_arena::arena::{
    Allocator, BuilderArena, BuilderArenaImpl, ReaderArena, ReaderArenaImpl, ReaderSegments,
};
use crate::proved::capnp_pointers::pointers::{CanonicalFault, MessageSize};
use crate::proved::capnp_words::error::ErrorKind;
use crate::proved::capnp_words::read_limiter::ReadLimiter;
use crate::proved::support::alloc::Global;

/// Makes the canonical copy of the message in `source` (encoding specification,
/// "Canonicalization"): a message of one segment, whose memory `allocator` grants. If refused,
/// returns the allocator.
///
/// Reads the value from the root on, within the nesting limit of `source` and
/// `traversal_limit_in_words`; the root pointer costs one word. Refusals: the first one met while
/// reading the message; `AllocationFailed`, which the allocator counts, if memory ran out;
/// `MessageTooLarge(536870911)` if there are more than 536,870,911 canonical words.
pub fn canonicalize<A: Allocator, S: ReaderSegments>(
    alloc: Global,
    allocator: A,
    source: &ReaderArenaImpl<S>,
    traversal_limit_in_words: Option<usize>,
) -> Result<BuilderArenaImpl<A>, (ErrorKind, A)> {
    let mut lim = ReadLimiter::new(traversal_limit_in_words);
    match read_root(source, &mut lim) {
        Ok(root) => canonicalize_reached(alloc, allocator, Reached::Pointer(root), &mut lim),
        Err(kind) => Err((kind, allocator)),
    }
}

/// Makes the canonical copy of the message in `source`, within the limits of `canonicalize`. The
/// copy becomes the one segment of `made`, for which this call requests `room` words. Returns
/// `true`; or `false` if the copy doesn't fit the segment, or there is no memory for the segment.
/// (`canonicalize` finds out by itself how large the segment has to be.)
///
/// Preconditions: `made` has no segment yet; `room` is from 1 to 536,870,911. Refuses with the
/// first refusal met while reading the message.
///
/// # Preconditions
///
/// ```text
/// requires none { ⟦<BuilderArenaImpl<A> as ReaderArena>⟧.segments made.old ≡ [] }
/// requires room { IsSegmentRoom room }
/// ```
pub fn canonicalize_into<A: Allocator, S: ReaderSegments>(
    made: &mut BuilderArenaImpl<A>,
    room: u32,
    source: &ReaderArenaImpl<S>,
    traversal_limit_in_words: Option<usize>,
) -> Result<bool, ErrorKind> {
    let mut lim = ReadLimiter::new(traversal_limit_in_words);
    let root = read_root(source, &mut lim)?;
    canonicalize_reached_into(made, Reached::Pointer(root), lim.left(), room)
}

/// Tests whether the message in `source` is canonical as a whole. Returns where and why it isn't,
/// or `None` if it is. A canonical message has one segment, which holds the canonical words of a
/// value and nothing else (encoding specification, "Canonicalization"). Takes no memory.
///
/// Returns the first fault found, like `canonical_fault`. Reads a message of one segment within the
/// nesting limit of `source` and `traversal_limit_in_words`, and refuses it with the first refusal
/// met while reading. Doesn't read a message with any other number of segments, but returns the
/// fault `SegmentCount`. If the result is `Ok(None)`, the value is within these limits.
pub fn check<S: ReaderSegments>(
    source: &ReaderArenaImpl<S>,
    traversal_limit_in_words: Option<usize>,
) -> Result<Option<CanonicalFault>, ErrorKind> {
    let mut lim = ReadLimiter::new(traversal_limit_in_words);
    canonical_fault(source, &mut lim)
}

/// Counts the words and capabilities of the value that the root pointer of the message in `source`
/// leads to, without the root pointer and landing pads (encoding specification, "Structs" and
/// "Lists"). Takes no memory.
///
/// Reads within the nesting limit of `source` and `traversal_limit_in_words`; the root pointer
/// costs one word. Refuses like `read_root` and `Pointer::total_size`.
pub fn size<S: ReaderSegments>(
    source: &ReaderArenaImpl<S>,
    traversal_limit_in_words: Option<usize>,
) -> Result<MessageSize, ErrorKind> {
    let mut lim = ReadLimiter::new(traversal_limit_in_words);
    let root = read_root(source, &mut lim)?;
    root.total_size(&mut lim)
}
