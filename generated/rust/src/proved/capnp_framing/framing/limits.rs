//! The limit for the words of a message that is read from a frame.

use crate::proved::capnp_arena::arena::ReaderOptions;

/// Returns the largest number of words that a message may have; a frame with more words isn't read.
pub fn most_words(options: ReaderOptions) -> u64 {
    match options.traversal_limit_in_words {
        Some(words) => words as u64,
        None => u64::MAX,
    }
}
