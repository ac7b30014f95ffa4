//! Copies, tests and measures a message given as the words of its only segment, without a
//! frame.

use crate::proved::capnp_arena::arena::OutputSegments;
use crate::proved::capnp_canonical::calls::{check, copy, size, Limits};
use crate::proved::capnp_canonical::refusal::Refusal;
use crate::proved::capnp_messages::messages::Form;
use crate::proved::capnp_pointers::pointers::{CanonicalFault, MessageSize};
use crate::proved::capnp_words::error::ErrorKind;
use crate::proved::support::alloc::Global;

/// Returns `bytes`. If `bytes` is empty, returns an empty slice with another pointer, because C may
/// have passed a null pointer.
fn without_null(bytes: &[u8]) -> &[u8] {
    if bytes.is_empty() {
        &[]
    } else {
        bytes
    }
}

/// Returns the message whose one segment is `words`. Refuses with `SegmentIsNotWholeWords` if
/// `words` isn't whole words, and with `MessageTooLarge` if it is 2^32 words or more.
pub fn message_of(words: &[u8]) -> Result<OutputSegments<'_>, Refusal> {
    if words.len() % 8 != 0 {
        return Err(Refusal::SegmentIsNotWholeWords);
    }
    if words.len() / 8 >= 0x1_0000_0000 {
        return Err(Refusal::Layout(ErrorKind::MessageTooLarge(usize::MAX)));
    }
    Ok(OutputSegments::SingleSegment(without_null(words)))
}

/// Makes a canonical copy of the message whose one segment is `words`, and writes the copy to the
/// front of `to`, without a frame. Returns the number of bytes written.
pub fn copy_words(
    alloc: Global,
    words: &[u8],
    limits: Limits,
    to: &mut [u8],
) -> Result<usize, Refusal> {
    let message = message_of(words)?;
    copy(alloc, Form::Flat, message, limits, to)
}

/// Returns why and where the message whose one segment is `words` isn't canonical; `None` if it is.
pub fn check_words(words: &[u8], limits: Limits) -> Result<Option<CanonicalFault>, Refusal> {
    let message = message_of(words)?;
    check(message, limits)
}

/// Counts the words and capabilities of the message whose one segment is `words`, without the root
/// pointer and landing pads.
pub fn size_words(words: &[u8], limits: Limits) -> Result<MessageSize, Refusal> {
    let message = message_of(words)?;
    size(message, limits)
}
