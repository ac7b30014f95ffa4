//! Copies, tests and measures a message in the caller's segments.

use crate::proved::capnp_arena::arena::{ReaderSegments, SegmentArray};
use crate::proved::capnp_canonical::calls::{check, copy, size, Limits};
use crate::proved::capnp_canonical::refusal::Refusal;
use crate::proved::capnp_messages::messages::Form;
use crate::proved::capnp_pointers::pointers::{CanonicalFault, MessageSize};
use crate::proved::capnp_words::error::ErrorKind;
use crate::proved::support::alloc::Global;

/// Returns the message in `segments`. Refuses with `SegmentIsNotWholeWords` if the bytes of a segment
/// aren't whole words, and with `MessageTooLarge` if there are more segments or words than
/// `SegmentArray::new` allows.
pub fn lent_message<'a>(segments: &'a [&'a [u8]]) -> Result<SegmentArray<'a>, Refusal> {
    if !segments.iter().all(|s| s.len() % 8 == 0) {
        return Err(Refusal::SegmentIsNotWholeWords);
    }
    match SegmentArray::new(segments) {
        Some(lent) => Ok(lent),
        None => Err(Refusal::Layout(ErrorKind::MessageTooLarge(usize::MAX))),
    }
}

/// Makes a canonical copy of the message in `segments`, and writes the copy to the front of `to`,
/// in a frame or without one, as `form` says. Returns the number of bytes written.
pub fn copy_segments(
    alloc: Global,
    form: Form,
    segments: &[&[u8]],
    limits: Limits,
    to: &mut [u8],
) -> Result<usize, Refusal> {
    let lent = lent_message(segments)?;
    copy(alloc, form, lent, limits, to)
}

/// Returns why and where the message in `segments` isn't canonical; `None` if it is.
pub fn check_segments(
    segments: &[&[u8]],
    limits: Limits,
) -> Result<Option<CanonicalFault>, Refusal> {
    let lent = lent_message(segments)?;
    check(lent, limits)
}

/// Counts the words and capabilities of the message in `segments`, without the root pointer and
/// landing pads.
pub fn size_segments(segments: &[&[u8]], limits: Limits) -> Result<MessageSize, Refusal> {
    let lent = lent_message(segments)?;
    size(lent, limits)
}
