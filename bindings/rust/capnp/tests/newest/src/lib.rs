//! The calls for segments over `capnp` 0.27.3, also without its default features.
#![no_std]

use capnp::message::{ReaderOptions, ReaderSegments};
use capnp_canonical_capnp::{canonical_words, limits};

/// Whether the canonical words of a message are `words`.
pub fn are_words_of<S: ReaderSegments>(
    segments: &S,
    options: &ReaderOptions,
    words: &[u8],
) -> bool {
    canonical_words(segments, limits(options)).is_ok_and(|it| it == words)
}
