//! The functions for C that work on a part of a message: on the value to which a path leads.

use crate::proved::capnp_canonical::calls::Limits;
use crate::proved::capnp_canonical::digests::{
    digest_frame_part_after, digest_segments_part_after, digest_words_part_after,
};
use crate::proved::capnp_canonical::parts::{
    copy_frame_part, copy_segments_part, copy_words_part, size_frame_part, size_segments_part,
    size_words_part,
};
use crate::proved::capnp_canonical::storing::{store, store_size, store_written};
use crate::proved::support::alloc::Global;

/// Makes the canonical copy of a part of the message whose frame is at the front of `frame`: of the
/// value to which `path` leads. Writes the canonical words to the front of `to`, without a frame,
/// and stores the number of bytes written in `written`. `nesting` and `words` are the limits of
/// `capnp_canonical_check`. The rest of the message isn't read.
///
/// `path` is a list of indexes. From the root pointer on, an index leads from a struct to one of
/// its pointers; from a list of pointers, to an element; from a list of structs, to an element,
/// which is a struct too. Refuses with `NoSuchPlace` if an index leads nowhere.
///
/// If `to` is too small, stores the number of bytes needed in `written`; for any other refusal, 0.
/// The bytes of `to` after the copy are unchanged. If the call is refused, all bytes of `to` are
/// unchanged.
pub fn capnp_canonical_copy_flat_at(
    alloc: Global,
    frame: &[u8],
    path: &[u32],
    nesting: i32,
    words: u64,
    to: &mut [u8],
    written: &mut usize,
) -> u32 {
    let copied = copy_frame_part(alloc, frame, path, Limits { nesting, words }, to);
    store_written(copied, written)
}

/// Stores in `digest` the SHA-256 of the bytes that `capnp_canonical_copy_flat_at` writes. After a
/// refusal `digest` is all 0. The refusals are those of `capnp_canonical_copy_flat_at`, except that
/// there is always room.
pub fn capnp_canonical_digest_at(
    alloc: Global,
    frame: &[u8],
    path: &[u32],
    nesting: i32,
    words: u64,
    digest: &mut [u8; 32],
) -> u32 {
    let made = digest_frame_part_after(alloc, &[], frame, path, Limits { nesting, words });
    store(made, [0; 32], digest)
}

/// Counts the words and capabilities of the part of the message to which `path` leads, without
/// landing pads. Follows `path` like `capnp_canonical_copy_flat_at`. Stores the numbers in
/// `word_count` and `cap_count`; after a refusal both are 0.
pub fn capnp_canonical_size_at(
    frame: &[u8],
    path: &[u32],
    nesting: i32,
    words: u64,
    word_count: &mut u64,
    cap_count: &mut u32,
) -> u32 {
    let size = size_frame_part(frame, path, Limits { nesting, words });
    store_size(size, word_count, cap_count)
}

/// Like `capnp_canonical_copy_flat_at`, for a message that the caller passes as `segments`, without
/// a frame.
pub fn capnp_canonical_segments_copy_flat_at(
    alloc: Global,
    segments: &[&[u8]],
    path: &[u32],
    nesting: i32,
    words: u64,
    to: &mut [u8],
    written: &mut usize,
) -> u32 {
    let copied = copy_segments_part(alloc, segments, path, Limits { nesting, words }, to);
    store_written(copied, written)
}

/// Like `capnp_canonical_digest_at`, for a message that the caller passes as `segments`, without a
/// frame.
pub fn capnp_canonical_segments_digest_at(
    alloc: Global,
    segments: &[&[u8]],
    path: &[u32],
    nesting: i32,
    words: u64,
    digest: &mut [u8; 32],
) -> u32 {
    let made = digest_segments_part_after(alloc, &[], segments, path, Limits { nesting, words });
    store(made, [0; 32], digest)
}

/// Like `capnp_canonical_size_at`, for a message that the caller passes as `segments`, without a
/// frame.
pub fn capnp_canonical_segments_size_at(
    segments: &[&[u8]],
    path: &[u32],
    nesting: i32,
    words: u64,
    word_count: &mut u64,
    cap_count: &mut u32,
) -> u32 {
    let size = size_segments_part(segments, path, Limits { nesting, words });
    store_size(size, word_count, cap_count)
}

/// Like `capnp_canonical_copy_flat_at`, for a message with one segment, whose words the caller
/// passes as `bytes`, without a frame.
pub fn capnp_canonical_words_copy_at(
    alloc: Global,
    bytes: &[u8],
    path: &[u32],
    nesting: i32,
    words: u64,
    to: &mut [u8],
    written: &mut usize,
) -> u32 {
    let copied = copy_words_part(alloc, bytes, path, Limits { nesting, words }, to);
    store_written(copied, written)
}

/// Like `capnp_canonical_digest_at`, for a message with one segment, whose words the caller passes
/// as `bytes`, without a frame.
pub fn capnp_canonical_words_digest_at(
    alloc: Global,
    bytes: &[u8],
    path: &[u32],
    nesting: i32,
    words: u64,
    digest: &mut [u8; 32],
) -> u32 {
    let made = digest_words_part_after(alloc, &[], bytes, path, Limits { nesting, words });
    store(made, [0; 32], digest)
}

/// Like `capnp_canonical_size_at`, for a message with one segment, whose words the caller passes as
/// `bytes`, without a frame.
pub fn capnp_canonical_words_size_at(
    bytes: &[u8],
    path: &[u32],
    nesting: i32,
    words: u64,
    word_count: &mut u64,
    cap_count: &mut u32,
) -> u32 {
    let size = size_words_part(bytes, path, Limits { nesting, words });
    store_size(size, word_count, cap_count)
}
