//! Lists the objects of a message: the kind and place of each, and the pointer that leads to it.

mod listing;
mod walk;

use crate::proved::capnp_arena::arena::{ReaderArenaImpl, ReaderOptions, ReaderSegments};
use crate::proved::capnp_messages::messages::read_root;
use crate::proved::capnp_refusals::refusals::RefusedPointer;
use crate::proved::capnp_words::read_limiter::ReadLimiter;
pub use listing::{WalkedObject, CAPABILITY, NO_PARENT, STRUCT};
use walk::walk_value;

/// How a walk over a message ended.
#[derive(Clone, Copy, Debug, PartialEq, Eq)]
pub struct WalkedMessage {
    /// The number of objects that were found; `u64::MAX` if there are more.
    pub count: u64,
    /// The pointer at which the walk stopped, with its refusal; `None` if the message was read to
    /// its end.
    pub refused: Option<RefusedPointer>,
}

/// Lists the objects of the message in `segments`: writes one entry to `objects` for each struct,
/// list and capability, each before those that its own pointers lead to. Null pointers have no
/// entry, and neither has an element of a list of structs. An object that several pointers lead to
/// has one entry for each of them. Takes no memory.
///
/// Precondition: `segments` has fewer than 2^32 segments, each of fewer than 2^32 words.
///
/// Reads within `limits`, in the order of the pointers, and counts, charges and refuses like
/// `validate` of `capnp_messages`. A walk that is refused ends at that pointer; the entries before it are kept.
///
/// If `objects` is too short, the objects that don't fit are counted, but not written. So
/// `result.count` is the number of entries that the array needs. Entries of `objects` after the
/// last object are unchanged. If `limits` has a traversal limit, `result.count` is at most that
/// limit.
///
/// # Preconditions
///
/// ```text
/// requires { IsSmall (S.segments segments) }
/// ```
pub fn walk_message<S: ReaderSegments>(
    segments: S,
    limits: ReaderOptions,
    objects: &mut [WalkedObject],
) -> WalkedMessage {
    let arena = ReaderArenaImpl::new(segments, limits);
    let mut lim = ReadLimiter::new(limits.traversal_limit_in_words);
    match read_root(&arena, &mut lim) {
        Ok(root) => {
            let mut count = 0;
            let refused = walk_value(&root, objects, &mut count, &mut lim);
            WalkedMessage { count, refused }
        }
        Err(refusal) => WalkedMessage {
            count: 0,
            refused: Some(RefusedPointer {
                segment: 0,
                word: 0,
                refusal,
            }),
        },
    }
}
