//! Finds out whether the whole value of a message can be read.

use super::root::read_root;
use crate::proved::capnp_arena::arena::{ReaderArena, ReaderArenaImpl, ReaderSegments};
use crate::proved::capnp_pointers::pointers::Extent;
use crate::proved::capnp_words::error::ErrorKind;
use crate::proved::capnp_words::read_limiter::ReadLimiter;

/// How deep the value of a message is, how much it holds, and what reading it costs.
#[derive(Clone, Copy, Debug, PartialEq, Eq)]
pub struct MessageExtent {
    /// Depth, words and capabilities of the value that the root pointer leads to.
    pub value: Extent,
    /// The number of words that reading the whole value once takes from the traversal limit, with
    /// one for the root pointer; `None` if there is no limit.
    pub cost: Option<usize>,
}

/// Tests whether the whole value of a message can be read, from the root on. Returns how deep the
/// value is and how much it holds. Takes no memory.
///
/// Charges `lim` one word for the root pointer, and then counts, charges and refuses like
/// `Pointer::validate`. Refusals of the root pointer, which charge nothing: `InvalidSegmentId(0)`
/// if there are no segments; `MessageContainsOutOfBoundsPointer` if the first segment has no word;
/// `ReadLimitExceeded` if `lim` has no word left.
pub fn validate_root<S: ReaderSegments>(
    arena: &ReaderArenaImpl<S>,
    lim: &mut ReadLimiter,
) -> Result<Extent, ErrorKind> {
    let root = read_root(arena, lim)?;
    root.validate(lim)
}

/// Tests whether the message in `source` is sound: whether its root means a value, which may have
/// capabilities, within the nesting limit of `source` and `traversal_limit_in_words`. Returns how
/// deep the value is, how much it holds, and what reading it costs. Takes no memory.
///
/// Refuses like `validate_root`, with the first fault found.
pub fn validate<S: ReaderSegments>(
    source: &ReaderArenaImpl<S>,
    traversal_limit_in_words: Option<usize>,
) -> Result<MessageExtent, ErrorKind> {
    let mut lim = ReadLimiter::new(traversal_limit_in_words);
    let value = validate_root(source, &mut lim)?;
    Ok(MessageExtent {
        value,
        cost: words_taken(traversal_limit_in_words, lim.left()),
    })
}

/// The number of words that a reading took from `limit`, if it has left `left`; `None` if there is
/// no limit.
fn words_taken(limit: Option<usize>, left: Option<usize>) -> Option<usize> {
    match (limit, left) {
        (Some(limit), Some(left)) => Some(limit.saturating_sub(left)),
        _ => None,
    }
}
