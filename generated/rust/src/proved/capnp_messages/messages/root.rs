//! Reads the root pointer of a message.

use crate::proved::capnp_arena::arena::{ReaderArena, ReaderArenaImpl, ReaderSegments};
use crate::proved::capnp_pointers::pointers::Pointer;
use crate::proved::capnp_words::error::ErrorKind;
use crate::proved::capnp_words::read_limiter::ReadLimiter;

/// Returns the root pointer of a message, and charges `lim` the pointer's word. Does what
/// `Pointer::get_root_from_arena` does, for a reader's arena whose segments may be held by any
/// type.
///
/// Refusals, which charge nothing: `InvalidSegmentId(0)` if there are no segments;
/// `MessageContainsOutOfBoundsPointer` if the first segment has no word; `ReadLimitExceeded` if
/// `lim` has no word left.
pub fn read_root<'a, S: ReaderSegments>(
    arena: &'a ReaderArenaImpl<S>,
    lim: &mut ReadLimiter,
) -> Result<Pointer<'a, ReaderArenaImpl<S>>, ErrorKind> {
    Pointer::get_root_from_arena(arena, lim)
}
