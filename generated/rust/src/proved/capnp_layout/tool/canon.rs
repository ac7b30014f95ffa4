//! Finds the canonical words of a message (encoding specification, "Canonicalization").

use super::args::Args;
use super::limits::ensure_small;
use super::lines::Message;
use crate::proved::capnp_arena::arena::{
    Allocator, BuilderArena, BuilderArenaImpl, ReaderArenaImpl, ReaderOptions,
};
use crate::proved::capnp_messages::messages::canonicalize;
use crate::proved::capnp_words::error::ErrorKind;
use crate::proved::support::alloc::Global;

/// Makes a canonical copy of the value of the root of `source`: a message of one segment. A refusal
/// returns the allocator.
pub(in crate::proved::capnp_layout) fn canonicalize_root<A: Allocator>(
    alloc: Global,
    allocator: A,
    source: Message,
    options: ReaderOptions,
) -> Result<BuilderArenaImpl<A>, (ErrorKind, A)> {
    match ensure_small(&source) {
        Ok(()) => {
            let arena = ReaderArenaImpl::new(source, options);
            canonicalize(alloc, allocator, &arena, options.traversal_limit_in_words)
        }
        Err(kind) => Err((kind, allocator)),
    }
}
