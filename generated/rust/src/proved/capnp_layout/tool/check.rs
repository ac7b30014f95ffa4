//! Tests whether a message is in canonical form.

use super::args::Args;
use super::limits::ensure_small;
use super::lines::Message;
use crate::proved::capnp_arena::arena::{ReaderArenaImpl, ReaderOptions};
use crate::proved::capnp_messages::messages::read_root;
use crate::proved::capnp_readers::readers::PointerReader;
use crate::proved::capnp_words::error::ErrorKind;
use crate::proved::capnp_words::read_limiter::ReadLimiter;

/// Tests whether a message is in canonical form at its root, with the first object right after the
/// root pointer (encoding specification, "Canonicalization").
pub(in crate::proved::capnp_layout) fn is_canonical(
    source: Message,
    options: ReaderOptions,
) -> Result<bool, ErrorKind> {
    ensure_small(&source)?;
    let arena = ReaderArenaImpl::new(source, options);
    let mut lim = ReadLimiter::new(options.traversal_limit_in_words);
    let root = read_root(&arena, &mut lim)?;
    let mut head = 1;
    PointerReader::from_pointer(root).is_canonical(&mut lim, &mut head)
}
