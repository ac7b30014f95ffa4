//! Finds out where and why a whole message isn't in canonical form (encoding specification,
//! "Canonicalization").

use super::root::read_root;
use crate::proved::capnp_arena::arena::{ReaderArena, ReaderArenaImpl, ReaderSegments};
use crate::proved::capnp_pointers::pointers::{CanonicalFault, CanonicalFaultReason};
use crate::proved::capnp_words::error::ErrorKind;
use crate::proved::capnp_words::read_limiter::ReadLimiter;

/// Returns the fault `SegmentCount` if the message doesn't have exactly one segment: at segment 0
/// if it has none, at segment 1 if it has more. Returns `None` if it has exactly one.
fn segment_count_fault<A: ReaderArena>(arena: &A) -> Option<CanonicalFault> {
    let is_empty = arena.get_segment(0).is_err();
    if !is_empty && arena.get_segment(1).is_err() {
        return None;
    }
    Some(CanonicalFault {
        segment: if is_empty { 0 } else { 1 },
        word: 0,
        reason: CanonicalFaultReason::SegmentCount,
    })
}

/// Returns where and why a message isn't canonical as a whole, or `None` if it is. Reads, charges
/// and refuses like `is_canonical_message`.
///
/// Returns the first fault of these: a number of segments other than 1; the fault that
/// `PointerReader::canonical_fault` finds at the root; words after those of the value. The fault's
/// reason is true of the word that the fault names.
pub fn canonical_fault<S: ReaderSegments>(
    arena: &ReaderArenaImpl<S>,
    lim: &mut ReadLimiter,
) -> Result<Option<CanonicalFault>, ErrorKind> {
    let of_count = segment_count_fault(arena);
    if of_count.is_some() {
        return Ok(of_count);
    }
    let root = read_root(arena, lim)?;
    let mut head = 1;
    if let Some(fault) = root.canonical_fault(lim, &mut head)? {
        return Ok(Some(fault));
    }
    if head as usize == arena.size_in_words() {
        return Ok(None);
    }
    Ok(Some(CanonicalFault {
        segment: 0,
        word: head,
        reason: CanonicalFaultReason::WordsBehind,
    }))
}
