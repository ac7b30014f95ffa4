//! The functions for C that take a message as the words of its only segment, without a frame.

use crate::proved::capnp_canonical::calls::Limits;
use crate::proved::capnp_canonical::digests::digest_words_after;
use crate::proved::capnp_canonical::fault::{Fault, NO_FAULT};
use crate::proved::capnp_canonical::locating::{locate_in_words, BrokenPointer, NO_POINTER};
use crate::proved::capnp_canonical::storing::{store, store_size, store_written};
use crate::proved::capnp_canonical::validation::{validate_words, SoundMessage, NOT_SOUND};
use crate::proved::capnp_canonical::words::{check_words, copy_words, size_words};
use crate::proved::support::alloc::Global;

/// Like `capnp_canonical_copy_flat`, for a message with one segment, whose words the caller passes
/// as `bytes`, without a frame.
pub fn capnp_canonical_words_copy(
    alloc: Global,
    bytes: &[u8],
    nesting: i32,
    words: u64,
    to: &mut [u8],
    written: &mut usize,
) -> u32 {
    let copied = copy_words(alloc, bytes, Limits { nesting, words }, to);
    store_written(copied, written)
}

/// Like `capnp_canonical_check`, for a message with one segment, whose words the caller passes as
/// `bytes`, without a frame.
pub fn capnp_canonical_words_check(
    bytes: &[u8],
    nesting: i32,
    words: u64,
    is_canonical: &mut bool,
    fault: &mut Fault,
) -> u32 {
    match check_words(bytes, Limits { nesting, words }) {
        Ok(found) => {
            *is_canonical = found.is_none();
            *fault = Fault::of(found);
            0
        }
        Err(refusal) => {
            *is_canonical = false;
            *fault = NO_FAULT;
            refusal.number()
        }
    }
}

/// Like `capnp_canonical_size`, for a message with one segment, whose words the caller passes as
/// `bytes`, without a frame.
pub fn capnp_canonical_words_size(
    bytes: &[u8],
    nesting: i32,
    words: u64,
    word_count: &mut u64,
    cap_count: &mut u32,
) -> u32 {
    let size = size_words(bytes, Limits { nesting, words });
    store_size(size, word_count, cap_count)
}

/// Like `capnp_canonical_validate`, for the message whose only segment has the words in `bytes`.
pub fn capnp_canonical_words_validate(
    bytes: &[u8],
    nesting: i32,
    words: u64,
    extent: &mut SoundMessage,
) -> u32 {
    let found = validate_words(bytes, Limits { nesting, words });
    store(found, NOT_SOUND, extent)
}

/// Like `capnp_canonical_locate`, for the message whose only segment has the words in `bytes`.
pub fn capnp_canonical_words_locate(
    bytes: &[u8],
    nesting: i32,
    words: u64,
    reading: u32,
    pointer: &mut BrokenPointer,
) -> u32 {
    let found = locate_in_words(bytes, Limits { nesting, words }, reading);
    store(found, NO_POINTER, pointer)
}

/// Like `capnp_canonical_digest`, for a message with one segment, whose words the caller passes as
/// `bytes`, without a frame.
pub fn capnp_canonical_words_digest(
    alloc: Global,
    bytes: &[u8],
    nesting: i32,
    words: u64,
    digest: &mut [u8; 32],
) -> u32 {
    let made = digest_words_after(alloc, &[], bytes, Limits { nesting, words });
    store(made, [0; 32], digest)
}
