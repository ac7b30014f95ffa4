//! Counts the words and capabilities of a message.

use super::args::Args;
use super::limits::ensure_small;
use super::lines::Message;
use crate::proved::capnp_arena::arena::{ReaderArenaImpl, ReaderOptions};
use crate::proved::capnp_messages::messages;
use crate::proved::capnp_readers::readers::MessageSize;
use crate::proved::capnp_words::error::ErrorKind;

/// Counts the words and capabilities that the root of a message leads to, without landing pads.
pub(in crate::proved::capnp_layout) fn measure_message(
    source: Message,
    options: ReaderOptions,
) -> Result<MessageSize, ErrorKind> {
    ensure_small(&source)?;
    let arena = ReaderArenaImpl::new(source, options);
    messages::size(&arena, options.traversal_limit_in_words)
}
