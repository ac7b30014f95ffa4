//! Makes canonical copies of a part of a message: of the value to which a path leads; and measures
//! parts.

use super::canonical_copy::{canonicalize_reached, canonicalize_reached_into};
use super::path::read_part;
use crate::proved::capnp_arena::arena::{
    Allocator, BuilderArena, BuilderArenaImpl, ReaderArena, ReaderArenaImpl, ReaderSegments,
};
use crate::proved::capnp_pointers::pointers::MessageSize;
use crate::proved::capnp_words::error::ErrorKind;
use crate::proved::capnp_words::read_limiter::ReadLimiter;
use crate::proved::support::alloc::Global;

/// Makes the canonical copy of a part of the message in `source`: of the value to which `path`
/// leads from the root pointer (encoding specification, "Canonicalization"). An element of a list of
/// structs is a struct. The copy is a message of one segment, whose memory `allocator` grants. If
/// refused, returns the allocator.
///
/// Follows `path` like `follow_path`, and reads the part, both within the nesting limit of `source`
/// and `traversal_limit_in_words`; the root pointer costs one word, and an element's own words were
/// charged with its list. The rest of the message isn't read. Refusals: the first one met while
/// reading; `NoSuchPlace` if `path` leads nowhere; `AllocationFailed`, which the allocator counts, if
/// memory ran out; `MessageTooLarge(536870911)` if there are more than 536,870,911 canonical words.
pub fn canonicalize_part<A: Allocator, S: ReaderSegments>(
    alloc: Global,
    allocator: A,
    source: &ReaderArenaImpl<S>,
    path: &[u32],
    traversal_limit_in_words: Option<usize>,
) -> Result<BuilderArenaImpl<A>, (ErrorKind, A)> {
    let mut lim = ReadLimiter::new(traversal_limit_in_words);
    match read_part(source, path, &mut lim) {
        Ok(part) => canonicalize_reached(alloc, allocator, part, &mut lim),
        Err(kind) => Err((kind, allocator)),
    }
}

/// Makes the canonical copy of a part of the message in `source`, within the limits of
/// `canonicalize_part`. The copy becomes the one segment of `made`, for which this call requests
/// `room` words. Returns `true`; or `false` if the copy doesn't fit the segment, or there is no
/// memory for the segment.
///
/// Preconditions: `made` has no segment yet; `room` is from 1 to 536,870,911. Refuses with the
/// first refusal met while reading, or with `NoSuchPlace` if `path` leads nowhere.
///
/// # Preconditions
///
/// ```text
/// requires none { ⟦<BuilderArenaImpl<A> as ReaderArena>⟧.segments made.old ≡ [] }
/// requires room { IsSegmentRoom room }
/// ```
pub fn canonicalize_part_into<A: Allocator, S: ReaderSegments>(
    made: &mut BuilderArenaImpl<A>,
    room: u32,
    source: &ReaderArenaImpl<S>,
    path: &[u32],
    traversal_limit_in_words: Option<usize>,
) -> Result<bool, ErrorKind> {
    let mut lim = ReadLimiter::new(traversal_limit_in_words);
    let part = read_part(source, path, &mut lim)?;
    canonicalize_reached_into(made, part, lim.left(), room)
}

/// Counts the words and capabilities of the value to which `path` leads from the root pointer of
/// the message in `source`, without landing pads (encoding specification, "Structs" and "Lists"). An
/// element of a list of structs has the words of its sections. Takes no memory. Reads within the
/// nesting limit of `source` and `traversal_limit_in_words`. Refuses like `follow_path`, and
/// otherwise like `Pointer::total_size`.
pub fn size_of_part<S: ReaderSegments>(
    source: &ReaderArenaImpl<S>,
    path: &[u32],
    traversal_limit_in_words: Option<usize>,
) -> Result<MessageSize, ErrorKind> {
    let mut lim = ReadLimiter::new(traversal_limit_in_words);
    let part = read_part(source, path, &mut lim)?;
    part.total_size(&mut lim)
}
