//! Finds messages that are canonical already (encoding specification, "Canonicalization"), and so
//! needn't be copied.

use super::message_fault::canonical_fault;
use super::writing::whole_words;
use crate::proved::capnp_arena::arena::{
    ReaderArena, ReaderArenaImpl, ReaderSegments, MAX_SEGMENT_WORDS,
};
use crate::proved::capnp_words::read_limiter::ReadLimiter;

/// If the message is canonical as a whole, returns the bytes of its only segment: the canonical
/// words of its value. Returns `None` if the message isn't canonical, if testing it exceeds the
/// nesting limit of `source` or `traversal_limit_in_words`, or if it has more than 536,870,911 words,
/// the most that a copy can have. Takes no memory.
pub fn canonical_segment<S: ReaderSegments>(
    source: &ReaderArenaImpl<S>,
    traversal_limit_in_words: Option<usize>,
) -> Option<&[u8]> {
    if source.size_in_words() > MAX_SEGMENT_WORDS as usize {
        return None;
    }
    let mut lim = ReadLimiter::new(traversal_limit_in_words);
    match canonical_fault(source, &mut lim) {
        Ok(None) => match source.get_segment(0) {
            Ok(segment) => Some(whole_words(segment)),
            Err(_) => None,
        },
        Ok(Some(_)) => None,
        Err(_) => None,
    }
}
