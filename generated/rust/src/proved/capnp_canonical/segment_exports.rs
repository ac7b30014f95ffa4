//! The functions for C that take a message as segments, without a frame.

use crate::proved::capnp_canonical::calls::Limits;
use crate::proved::capnp_canonical::digests::digest_segments_after;
use crate::proved::capnp_canonical::fault::{Fault, NO_FAULT};
use crate::proved::capnp_canonical::locating::{locate_in_segments, BrokenPointer, NO_POINTER};
use crate::proved::capnp_canonical::segments::{check_segments, copy_segments, size_segments};
use crate::proved::capnp_canonical::storing::{store, store_size, store_written};
use crate::proved::capnp_canonical::validation::{validate_segments, SoundMessage, NOT_SOUND};
use crate::proved::capnp_messages::messages::Form;
use crate::proved::support::alloc::Global;

/// Like `capnp_canonical_copy`, for a message that the caller passes as `segments`, without a
/// frame.
pub fn capnp_canonical_segments_copy(
    alloc: Global,
    segments: &[&[u8]],
    nesting: i32,
    words: u64,
    to: &mut [u8],
    written: &mut usize,
) -> u32 {
    let copied = copy_segments(alloc, Form::Framed, segments, Limits { nesting, words }, to);
    store_written(copied, written)
}

/// Like `capnp_canonical_copy_flat`, for a message that the caller passes as `segments`, without a
/// frame.
pub fn capnp_canonical_segments_copy_flat(
    alloc: Global,
    segments: &[&[u8]],
    nesting: i32,
    words: u64,
    to: &mut [u8],
    written: &mut usize,
) -> u32 {
    let copied = copy_segments(alloc, Form::Flat, segments, Limits { nesting, words }, to);
    store_written(copied, written)
}

/// Like `capnp_canonical_check`, for a message that the caller passes as `segments`, without a
/// frame.
pub fn capnp_canonical_segments_check(
    segments: &[&[u8]],
    nesting: i32,
    words: u64,
    is_canonical: &mut bool,
    fault: &mut Fault,
) -> u32 {
    match check_segments(segments, Limits { nesting, words }) {
        Ok(found) => {
            *is_canonical = found.is_none();
            *fault = Fault::of(found);
            0
        }
        Err(refusal) => {
            *is_canonical = false;
            *fault = NO_FAULT;
            refusal.number()
        }
    }
}

/// Like `capnp_canonical_size`, for a message that the caller passes as `segments`, without a
/// frame.
pub fn capnp_canonical_segments_size(
    segments: &[&[u8]],
    nesting: i32,
    words: u64,
    word_count: &mut u64,
    cap_count: &mut u32,
) -> u32 {
    let size = size_segments(segments, Limits { nesting, words });
    store_size(size, word_count, cap_count)
}

/// Like `capnp_canonical_validate`, for the message of these segments.
pub fn capnp_canonical_segments_validate(
    segments: &[&[u8]],
    nesting: i32,
    words: u64,
    extent: &mut SoundMessage,
) -> u32 {
    let found = validate_segments(segments, Limits { nesting, words });
    store(found, NOT_SOUND, extent)
}

/// Like `capnp_canonical_locate`, for the message of these segments.
pub fn capnp_canonical_segments_locate(
    segments: &[&[u8]],
    nesting: i32,
    words: u64,
    reading: u32,
    pointer: &mut BrokenPointer,
) -> u32 {
    let found = locate_in_segments(segments, Limits { nesting, words }, reading);
    store(found, NO_POINTER, pointer)
}

/// Like `capnp_canonical_digest`, for a message that the caller passes as `segments`, without a
/// frame.
pub fn capnp_canonical_segments_digest(
    alloc: Global,
    segments: &[&[u8]],
    nesting: i32,
    words: u64,
    digest: &mut [u8; 32],
) -> u32 {
    let made = digest_segments_after(alloc, &[], segments, Limits { nesting, words });
    store(made, [0; 32], digest)
}
