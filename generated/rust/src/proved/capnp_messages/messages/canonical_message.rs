//! Tests whether a whole message is in canonical form.

use super::message_fault::canonical_fault;
use crate::proved::capnp_arena::arena::{ReaderArena, ReaderArenaImpl, ReaderSegments};
use crate::proved::capnp_words::error::ErrorKind;
use crate::proved::capnp_words::read_limiter::ReadLimiter;

/// Tests whether a message is canonical as a whole: whether it has one segment, which holds the
/// canonical words of a value and nothing else (encoding specification, "Canonicalization"). So two
/// canonical messages are equal exactly if their values are.
///
/// If there isn't exactly one segment, returns `false` and reads nothing. Otherwise reads the root
/// pointer, which costs one word, and tests its value like `PointerReader::is_canonical`, with the
/// charges, nesting limit and refusals of that call. If the message is canonical, its value is at
/// most as deep as the arena's nesting limit, and `lim` has words left for the value's cost and the
/// root pointer, then it isn't refused.
pub fn is_canonical_message<S: ReaderSegments>(
    arena: &ReaderArenaImpl<S>,
    lim: &mut ReadLimiter,
) -> Result<bool, ErrorKind> {
    Ok(canonical_fault(arena, lim)?.is_none())
}
