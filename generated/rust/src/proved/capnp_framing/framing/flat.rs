//! Reads a message in place from a frame in memory (encoding specification, "Serialization Over a
//! Stream").

use super::frame_error::FrameError;
use super::reading::{number_at, words_between};
use super::MAX_SEGMENTS;
use crate::proved::capnp_arena::arena::ReaderSegments;

/// The position of every `STEP`th segment is stored; those of the others are computed from these.
const STEP: usize = 32;

/// The number of positions that are stored.
const STARTS: usize = MAX_SEGMENTS / STEP;

/// The segments of a message, in the memory of its frame.
#[derive(Clone, Copy)]
pub struct FrameSegments<'a> {
    count: usize,
    // The sizes of the segments in words, four bytes each, and what follows them.
    table: &'a [u8],
    // The words of the segments, and what follows them.
    words: &'a [u8],
    // The number of words before every 32nd segment.
    starts: [u64; STARTS],
    // The size of the frame in bytes.
    size: usize,
}

/// Computes, from the `count` sizes in `table`, the number of words before every 32nd segment, and
/// the number of all words.
///
/// # Preconditions
///
/// ```text
/// requires inside { 4 * count ≤ length table.now }
/// requires few { count ≤ 512 }
/// ```
fn segment_starts(table: &[u8], count: usize) -> ([u64; STARTS], u64) {
    let mut starts = [0; STARTS];
    let mut sum = 0;
    for k in 0..(count + STEP - 1) / STEP {
        starts[k] = sum;
        sum += words_between(table, STEP * k, count.min(STEP * k + STEP));
    }
    (starts, sum)
}

impl FrameSegments<'_> {
    /// The size of the frame in bytes: its table with padding, and its words. The next frame of a
    /// stream starts after it.
    pub fn size_in_bytes(&self) -> usize {
        self.size
    }

    /// Returns the number of words before segment `id`, computed from the nearest position in
    /// `starts`.
    ///
    /// # Preconditions
    ///
    /// ```text
    /// requires { id < self.now.count }
    /// ```
    fn words_before(&self, id: usize) -> u64 {
        let k = id / STEP;
        let next = STEP * k + STEP;
        if id % STEP > STEP / 2 && next < self.count {
            self.starts[k + 1] - words_between(self.table, id, next)
        } else {
            self.starts[k] + words_between(self.table, STEP * k, id)
        }
    }
}

impl ReaderSegments for FrameSegments<'_> {
    fn get_segment(&self, id: u32) -> Option<&[u8]> {
        let id = id as usize;
        if id >= self.count {
            return None;
        }
        let at = 8 * self.words_before(id) as usize;
        let size = 8 * number_at(self.table, 4 * id) as usize;
        Some(&self.words[at..at + size])
    }

    fn len(&self) -> usize {
        self.count
    }
}

/// Reads a message in place from the front of `bytes`: copies nothing, and takes no memory. Ignores
/// the bytes after the message. Returns `None` if `bytes` is empty.
///
/// Refuses what `read` refuses, with the same errors in the same order, except that `ReadFailed`
/// and `AllocationFailed` can't occur.
pub fn read_from_flat_slice(
    bytes: &[u8],
    max_words: u64,
) -> Result<Option<FrameSegments<'_>>, FrameError> {
    if bytes.is_empty() {
        return Ok(None);
    }
    if bytes.len() < 4 {
        return Err(FrameError::Truncated);
    }
    let told = u64::from(number_at(bytes, 0)) + 1;
    if told > MAX_SEGMENTS as u64 {
        return Err(FrameError::TooManySegments(told));
    }
    let count = told as usize;
    let size = 4 + 4 * count + 4 * ((count + 1) % 2);
    if bytes.len() < size {
        return Err(FrameError::Truncated);
    }
    let (starts, words) = segment_starts(&bytes[4..], count);
    if words > max_words {
        return Err(FrameError::MessageTooLong(words));
    }
    let there = (bytes.len() - size) / 8;
    if words > there as u64 {
        return Err(FrameError::Truncated);
    }
    Ok(Some(FrameSegments {
        count,
        table: &bytes[4..],
        words: &bytes[size..],
        starts,
        size: size + 8 * words as usize,
    }))
}
