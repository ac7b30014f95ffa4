//! Copies, tests and measures the message whose frame is at the front of a buffer (encoding
//! specification, "Serialization Over a Stream").

use crate::proved::capnp_arena::arena::ReaderSegments;
use crate::proved::capnp_canonical::calls::{check, copy, size, Limits};
use crate::proved::capnp_canonical::refusal::Refusal;
use crate::proved::capnp_framing::framing::{
    read_from_flat_slice, size_from_prefix, FrameSegments,
};
use crate::proved::capnp_messages::messages::Form;
use crate::proved::capnp_pointers::pointers::{CanonicalFault, MessageSize};
use crate::proved::support::alloc::Global;

/// Returns the message whose frame is at the front of `bytes`. Refuses a message of more than
/// `words` words.
pub fn message_in(bytes: &[u8], words: u64) -> Result<FrameSegments<'_>, Refusal> {
    match read_from_flat_slice(bytes, words) {
        Ok(Some(segments)) => Ok(segments),
        Ok(None) => Err(Refusal::NoMessage),
        Err(error) => Err(Refusal::Frame(error)),
    }
}

/// Makes a canonical copy of the message whose frame is at the front of `frame`, and writes the
/// copy to the front of `to`, in a frame or without one, as `form` says. Returns the number of
/// bytes written.
pub fn copy_frame(
    alloc: Global,
    form: Form,
    frame: &[u8],
    limits: Limits,
    to: &mut [u8],
) -> Result<usize, Refusal> {
    let segments = message_in(frame, limits.words)?;
    copy(alloc, form, segments, limits, to)
}

/// Returns why and where the message whose frame is at the front of `frame` isn't canonical; `None`
/// if it is.
pub fn check_frame(frame: &[u8], limits: Limits) -> Result<Option<CanonicalFault>, Refusal> {
    let segments = message_in(frame, limits.words)?;
    check(segments, limits)
}

/// Counts the words and capabilities of the message whose frame is at the front of `frame`, without
/// the root pointer and landing pads.
pub fn size_frame(frame: &[u8], limits: Limits) -> Result<MessageSize, Refusal> {
    let segments = message_in(frame, limits.words)?;
    size(segments, limits)
}

/// Returns the size in bytes of the frame at the front of `bytes`. Refuses a message of more than
/// `words` words.
pub fn frame_size(bytes: &[u8], words: u64) -> Result<usize, Refusal> {
    Ok(message_in(bytes, words)?.size_in_bytes())
}

/// Returns how many bytes of a stream to have, from the start of a frame on, before `frame_size`
/// finds the frame whole. Goes by the bytes in `prefix`. Refuses the frame if they tell that it has
/// too many segments, or more than `words` words.
pub fn frame_size_from_prefix(prefix: &[u8], words: u64) -> Result<usize, Refusal> {
    match size_from_prefix(prefix, words) {
        Ok(size) => Ok(size),
        Err(error) => Err(Refusal::Frame(error)),
    }
}
