//! The size of a frame, from the bytes at its front (encoding specification, "Serialization Over a
//! Stream").

use super::frame_error::FrameError;
use super::reading::{number_at, words_between};
use super::MAX_SEGMENTS;

/// Returns how many bytes of a stream to have, from the start of a frame on, before reading the
/// frame from memory. `prefix` is what is there of them. If it contains the segment table, that is
/// the size of the frame; otherwise the size of the table as far as `prefix` tells it, which is more
/// than `prefix` has. So with as many bytes in `prefix` as the call returns, the frame is whole.
///
/// Refuses the frame if `prefix` tells that it has too many segments, or more than `max_words` words.
/// The errors are those of `read_from_flat_slice`.
pub fn size_from_prefix(prefix: &[u8], max_words: u64) -> Result<usize, FrameError> {
    if prefix.len() < 4 {
        return Ok(8);
    }
    let told = u64::from(number_at(prefix, 0)) + 1;
    if told > MAX_SEGMENTS as u64 {
        return Err(FrameError::TooManySegments(told));
    }
    let count = told as usize;
    let table = 4 + 4 * count + 4 * ((count + 1) % 2);
    if prefix.len() < table {
        return Ok(table);
    }
    let words = words_between(&prefix[4..], 0, count);
    if words > max_words {
        return Err(FrameError::MessageTooLong(words));
    }
    Ok(table + 8 * words as usize)
}
