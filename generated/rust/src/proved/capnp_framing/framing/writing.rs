//! Writes a message to a stream of bytes (encoding specification, "Serialization Over a Stream").

use super::frame_error::FrameError;
use super::MAX_SEGMENTS;
use crate::proved::capnp_arena::arena::ReaderSegments;
use crate::proved::capnp_framing::devices::{write_all, DeviceFault, Output};
use crate::proved::capnp_words::words::{count, word_range};

/// Returns the whole words of segment `id`; no bytes if there is no such segment.
///
/// # Preconditions
///
/// ```text
/// requires small { IsSmall (S.segments segments.now) }
/// ```
fn segment_words<S: ReaderSegments>(segments: &S, id: u32) -> &[u8] {
    match segments.get_segment(id) {
        Some(bytes) => word_range(bytes, 0, count(bytes)),
        None => &[],
    }
}

/// Writes `number` to the four bytes of `to` from position `at` on, the lowest byte first.
///
/// # Preconditions
///
/// ```text
/// requires { at + 4 ≤ length to.old }
/// ```
fn put_number(to: &mut [u8], at: usize, number: u32) {
    to[at..at + 4].copy_from_slice(number.to_le_bytes().as_slice());
}

/// Returns the bytes of `first`, then those of `second`; the lowest byte of each number comes
/// first.
fn number_pair_bytes(first: u32, second: u32) -> [u8; 8] {
    let mut bytes = [0u8; 8];
    put_number(&mut bytes, 0, first);
    put_number(&mut bytes, 4, second);
    bytes
}

/// The size of segment `id` in words; 0 if there is no such segment.
///
/// # Preconditions
///
/// ```text
/// requires small { IsSmall (S.segments segments.now) }
/// ```
fn segment_length<S: ReaderSegments>(segments: &S, id: u32) -> u32 {
    (segment_words(segments, id).len() / 8) as u32
}

/// Writes the table of a message: the number of segments minus one, and each segment's size in
/// words. Writes two numbers at a time; padding is written as the size 0 of a segment that doesn't
/// exist.
///
/// # Preconditions
///
/// ```text
/// requires ready { CanWrite W.Output output.old (S.segments segments.now) count }
/// requires some { 1 ≤ count }
/// requires few { count ≤ max_frame_segments }
/// ```
fn write_table<W: Output, S: ReaderSegments>(
    output: &mut W,
    segments: &S,
    count: u32,
) -> Result<(), DeviceFault> {
    let first = number_pair_bytes(count - 1, segment_length(segments, 0));
    write_all(output, first.as_slice())?;
    for k in 0..count / 2 {
        let next = number_pair_bytes(
            segment_length(segments, 2 * k + 1),
            segment_length(segments, 2 * k + 2),
        );
        write_all(output, next.as_slice())?;
    }
    Ok(())
}

/// Writes `words`. Precondition: these are whole words.
///
/// # Preconditions
///
/// ```text
/// requires works { W.has_failed output.old ≡ false }
/// requires whole { length words.now ≡ 8 * length (words_of words.now) }
/// ```
fn write_words<W: Output>(output: &mut W, words: &[u8]) -> Result<(), DeviceFault> {
    write_all(output, words)
}

/// Writes the words of all segments, in order.
///
/// # Preconditions
///
/// ```text
/// requires { CanWrite W.Output output.old (S.segments segments.now) count }
/// ```
fn write_all_segments<W: Output, S: ReaderSegments>(
    output: &mut W,
    segments: &S,
    count: u32,
) -> Result<(), DeviceFault> {
    for i in 0..count {
        write_words(output, segment_words(segments, i))?;
    }
    Ok(())
}

/// Writes a message as a frame: a table of its segments' sizes, with zero padding, and then the
/// words of each segment. Bytes after a segment's last whole word aren't written. Takes no memory.
/// Preconditions: `output` hasn't failed; `segments` has fewer than 2^32 segments, each of fewer
/// than 2^32 words.
///
/// Refusals: `NoSegments` if there are no segments; `TooManySegments(n)` if there are n segments,
/// and n is above 512. After these two refusals, nothing is written. `WriteFailed` if the output
/// failed; after it, how much is written is unspecified.
///
/// # Preconditions
///
/// ```text
/// requires works { W.has_failed output.old ≡ false }
/// requires small { IsSmall (S.segments segments.now) }
/// ```
pub fn write<W: Output, S: ReaderSegments>(output: &mut W, segments: &S) -> Result<(), FrameError> {
    let count = segments.len();
    if count == 0 {
        return Err(FrameError::NoSegments);
    }
    if count > MAX_SEGMENTS {
        return Err(FrameError::TooManySegments(count as u64));
    }
    if write_table(output, segments, count as u32).is_err() {
        return Err(FrameError::WriteFailed);
    }
    match write_all_segments(output, segments, count as u32) {
        Ok(()) => Ok(()),
        Err(DeviceFault) => Err(FrameError::WriteFailed),
    }
}
