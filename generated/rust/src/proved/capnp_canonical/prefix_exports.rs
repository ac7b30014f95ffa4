//! The functions for C that hash the canonical words of a message, or of a part of one, after a
//! prefix.

use crate::proved::capnp_canonical::calls::Limits;
use crate::proved::capnp_canonical::digests::{
    digest_frame_after, digest_frame_part_after, digest_segments_after, digest_segments_part_after,
    digest_words_after, digest_words_part_after,
};
use crate::proved::capnp_canonical::storing::store;
use crate::proved::support::alloc::Global;

/// Stores in `digest` the SHA-256 of the bytes of `prefix` and then the canonical words of the
/// message whose frame is at the front of `frame`: the bytes that `capnp_canonical_copy_flat`
/// writes. `nesting` and `words` limit the reading, as in `capnp_canonical_check`. After a refusal
/// `digest` is all 0. The refusals are those of `capnp_canonical_digest`.
pub fn capnp_canonical_digest_with(
    alloc: Global,
    prefix: &[u8],
    frame: &[u8],
    nesting: i32,
    words: u64,
    digest: &mut [u8; 32],
) -> u32 {
    let made = digest_frame_after(alloc, prefix, frame, Limits { nesting, words });
    store(made, [0; 32], digest)
}

/// Like `capnp_canonical_digest_with`, for the message in `segments`.
pub fn capnp_canonical_segments_digest_with(
    alloc: Global,
    prefix: &[u8],
    segments: &[&[u8]],
    nesting: i32,
    words: u64,
    digest: &mut [u8; 32],
) -> u32 {
    let made = digest_segments_after(alloc, prefix, segments, Limits { nesting, words });
    store(made, [0; 32], digest)
}

/// Like `capnp_canonical_digest_with`, for a message with one segment, whose words the caller
/// passes as `bytes`, without a frame.
pub fn capnp_canonical_words_digest_with(
    alloc: Global,
    prefix: &[u8],
    bytes: &[u8],
    nesting: i32,
    words: u64,
    digest: &mut [u8; 32],
) -> u32 {
    let made = digest_words_after(alloc, prefix, bytes, Limits { nesting, words });
    store(made, [0; 32], digest)
}

/// Like `capnp_canonical_digest_with`, for the part of the message to which `path` leads: the
/// SHA-256 of `prefix` and then the bytes that `capnp_canonical_copy_flat_at` writes.
pub fn capnp_canonical_digest_with_at(
    alloc: Global,
    prefix: &[u8],
    frame: &[u8],
    path: &[u32],
    nesting: i32,
    words: u64,
    digest: &mut [u8; 32],
) -> u32 {
    let made = digest_frame_part_after(alloc, prefix, frame, path, Limits { nesting, words });
    store(made, [0; 32], digest)
}

/// Like `capnp_canonical_digest_with_at`, for the message in `segments`.
pub fn capnp_canonical_segments_digest_with_at(
    alloc: Global,
    prefix: &[u8],
    segments: &[&[u8]],
    path: &[u32],
    nesting: i32,
    words: u64,
    digest: &mut [u8; 32],
) -> u32 {
    let made = digest_segments_part_after(alloc, prefix, segments, path, Limits { nesting, words });
    store(made, [0; 32], digest)
}

/// Like `capnp_canonical_digest_with_at`, for a message with one segment, whose words the caller
/// passes as `bytes`, without a frame.
pub fn capnp_canonical_words_digest_with_at(
    alloc: Global,
    prefix: &[u8],
    bytes: &[u8],
    path: &[u32],
    nesting: i32,
    words: u64,
    digest: &mut [u8; 32],
) -> u32 {
    let made = digest_words_part_after(alloc, prefix, bytes, path, Limits { nesting, words });
    store(made, [0; 32], digest)
}
