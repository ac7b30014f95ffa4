//! The SHA-256 of a prefix, which may be empty, and then the canonical words of a message, or of a
//! part of one. Takes the message's frame, its segments, or the words of its only segment.

use crate::proved::capnp_canonical::calls::Limits;
use crate::proved::capnp_canonical::frames::message_in;
use crate::proved::capnp_canonical::refusal::Refusal;
use crate::proved::capnp_canonical::segments::lent_message;
use crate::proved::capnp_canonical::taking::{lend_part_words, lend_words, Prefix};
use crate::proved::capnp_canonical::words::message_of;
use crate::proved::support::alloc::Global;

/// Returns the SHA-256 of `prefix` and then the canonical words of the message whose frame is at
/// the front of `frame`.
pub fn digest_frame_after(
    alloc: Global,
    prefix: &[u8],
    frame: &[u8],
    limits: Limits,
) -> Result<[u8; 32], Refusal> {
    let segments = message_in(frame, limits.words)?;
    lend_words(alloc, segments, limits, &mut Prefix { bytes: prefix })
}

/// Like `digest_frame_after`, for the message in `segments`.
pub fn digest_segments_after(
    alloc: Global,
    prefix: &[u8],
    segments: &[&[u8]],
    limits: Limits,
) -> Result<[u8; 32], Refusal> {
    let lent = lent_message(segments)?;
    lend_words(alloc, lent, limits, &mut Prefix { bytes: prefix })
}

/// Like `digest_frame_after`, for the message whose one segment is `words`.
pub fn digest_words_after(
    alloc: Global,
    prefix: &[u8],
    words: &[u8],
    limits: Limits,
) -> Result<[u8; 32], Refusal> {
    let message = message_of(words)?;
    lend_words(alloc, message, limits, &mut Prefix { bytes: prefix })
}

/// Returns the SHA-256 of `prefix` and then the canonical words of the part of the message whose
/// frame is at the front of `frame` to which `path` leads.
pub fn digest_frame_part_after(
    alloc: Global,
    prefix: &[u8],
    frame: &[u8],
    path: &[u32],
    limits: Limits,
) -> Result<[u8; 32], Refusal> {
    let segments = message_in(frame, limits.words)?;
    lend_part_words(alloc, segments, path, limits, &mut Prefix { bytes: prefix })
}

/// Like `digest_frame_part_after`, for the message in `segments`.
pub fn digest_segments_part_after(
    alloc: Global,
    prefix: &[u8],
    segments: &[&[u8]],
    path: &[u32],
    limits: Limits,
) -> Result<[u8; 32], Refusal> {
    let lent = lent_message(segments)?;
    lend_part_words(alloc, lent, path, limits, &mut Prefix { bytes: prefix })
}

/// Like `digest_frame_part_after`, for the message whose one segment is `words`.
pub fn digest_words_part_after(
    alloc: Global,
    prefix: &[u8],
    words: &[u8],
    path: &[u32],
    limits: Limits,
) -> Result<[u8; 32], Refusal> {
    let message = message_of(words)?;
    lend_part_words(alloc, message, path, limits, &mut Prefix { bytes: prefix })
}
