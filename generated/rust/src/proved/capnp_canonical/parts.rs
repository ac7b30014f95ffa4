//! Copies and measures a part of a message: the value to which a path leads. Takes the message's
//! frame, its segments, or the words of its only segment.

use crate::proved::capnp_arena::arena::{ReaderArenaImpl, ReaderSegments};
use crate::proved::capnp_canonical::calls::Limits;
use crate::proved::capnp_canonical::frames::message_in;
use crate::proved::capnp_canonical::refusal::Refusal;
use crate::proved::capnp_canonical::segments::lent_message;
use crate::proved::capnp_canonical::taking::{lend_part_words, Room};
use crate::proved::capnp_canonical::words::message_of;
use crate::proved::capnp_messages::messages;
use crate::proved::capnp_messages::messages::Form;
use crate::proved::capnp_pointers::pointers::MessageSize;
use crate::proved::support::alloc::Global;

/// Makes the canonical copy of the part of the message in `segments` to which `path` leads, and
/// writes the copy to the front of `to`, without a frame. Returns the number of bytes written.
///
/// Takes heap memory only if the copy has more than 64 words.
///
/// # Preconditions
///
/// ```text
/// requires { IsSmall (S.segments segments) }
/// ```
fn copy_at<S: ReaderSegments>(
    alloc: Global,
    segments: S,
    path: &[u32],
    limits: Limits,
    to: &mut [u8],
) -> Result<usize, Refusal> {
    let mut room = Room {
        form: Form::Flat,
        to,
    };
    match lend_part_words(alloc, segments, path, limits, &mut room) {
        Ok(written) => written,
        Err(refusal) => Err(refusal),
    }
}

/// Counts the words and capabilities of the part of the message in `segments` to which `path`
/// leads, without landing pads.
///
/// # Preconditions
///
/// ```text
/// requires { IsSmall (S.segments segments) }
/// ```
fn size_at<S: ReaderSegments>(
    segments: S,
    path: &[u32],
    limits: Limits,
) -> Result<MessageSize, Refusal> {
    let options = limits.options();
    let source = ReaderArenaImpl::new(segments, options);
    Ok(messages::size_of_part(
        &source,
        path,
        options.traversal_limit_in_words,
    )?)
}

/// Makes the canonical copy of the part of the message at the front of `frame` to which `path`
/// leads, and writes the copy to the front of `to`, without a frame. Returns the number of bytes
/// written.
pub fn copy_frame_part(
    alloc: Global,
    frame: &[u8],
    path: &[u32],
    limits: Limits,
    to: &mut [u8],
) -> Result<usize, Refusal> {
    let segments = message_in(frame, limits.words)?;
    copy_at(alloc, segments, path, limits, to)
}

/// Counts the words and capabilities of the part of the message at the front of `frame` to which
/// `path` leads, without landing pads.
pub fn size_frame_part(frame: &[u8], path: &[u32], limits: Limits) -> Result<MessageSize, Refusal> {
    let segments = message_in(frame, limits.words)?;
    size_at(segments, path, limits)
}

/// Like `copy_frame_part`, for the message in `segments`.
pub fn copy_segments_part(
    alloc: Global,
    segments: &[&[u8]],
    path: &[u32],
    limits: Limits,
    to: &mut [u8],
) -> Result<usize, Refusal> {
    let lent = lent_message(segments)?;
    copy_at(alloc, lent, path, limits, to)
}

/// Like `size_frame_part`, for the message in `segments`.
pub fn size_segments_part(
    segments: &[&[u8]],
    path: &[u32],
    limits: Limits,
) -> Result<MessageSize, Refusal> {
    let lent = lent_message(segments)?;
    size_at(lent, path, limits)
}

/// Like `copy_frame_part`, for the message whose one segment is `words`.
pub fn copy_words_part(
    alloc: Global,
    words: &[u8],
    path: &[u32],
    limits: Limits,
    to: &mut [u8],
) -> Result<usize, Refusal> {
    let message = message_of(words)?;
    copy_at(alloc, message, path, limits, to)
}

/// Like `size_frame_part`, for the message whose one segment is `words`.
pub fn size_words_part(words: &[u8], path: &[u32], limits: Limits) -> Result<MessageSize, Refusal> {
    let message = message_of(words)?;
    size_at(message, path, limits)
}
