//! Tests whether a message from the input is small enough for readers.

use super::lines::Message;
use crate::proved::capnp_words::error::ErrorKind;

/// Tests whether a message is small enough for readers: it has fewer than 2^32 segments, each of
/// fewer than 2^32 words. Refuses a larger one with `MessageTooLarge`.
pub(in crate::proved::capnp_layout) fn ensure_small(source: &Message) -> Result<(), ErrorKind> {
    if source.is_small() {
        Ok(())
    } else {
        Err(ErrorKind::MessageTooLarge(usize::MAX))
    }
}
