//! Reads a message of one segment from its words, without a frame (encoding specification,
//! "Messages").

use super::frame_error::FrameError;
use super::owned_segments::OwnedSegments;
use super::reading::{grow_if_full, read_between};
use crate::proved::capnp_arena::arena::{Allocator, HeapAllocator, ReaderSegments};
use crate::proved::capnp_framing::devices::{DeviceFault, Input};
use crate::proved::support::vec::Vec;

/// The most words that a segment table can state for a segment.
const MAX_WORDS: u64 = (1 << 32) - 1;

/// The most bytes by which memory grows before any byte arrives. After that, memory grows each time
/// by at most as many bytes as have arrived, or by this number if that is more.
const FIRST_PIECE: usize = 1 << 12;

/// Reads to the front of `to`, which grows as bytes arrive, until `most` bytes are read or the
/// input ends. Returns the number of bytes read.
///
/// # Preconditions
///
/// ```text
/// requires { R.has_failed input.old ≡ false }
/// ```
fn read_to_end<A: Allocator, R: Input>(
    allocator: &mut A,
    input: &mut R,
    to: &mut Vec<u8>,
    most: usize,
) -> Result<usize, FrameError> {
    let mut n = 0;
    while n < most {
        let more = (most - n).min(n.max(FIRST_PIECE));
        grow_if_full(allocator, to, n, more)?;
        let end = most.min(to.len());
        let came = match read_between(input, to.as_mut_slice(), n, end) {
            Ok(came) => came,
            Err(DeviceFault) => return Err(FrameError::ReadFailed),
        };
        n += came;
        if n < end {
            return Ok(n);
        }
    }
    Ok(n)
}

/// Appends `bytes` to `list`. If there is no memory for a byte, refuses with `AllocationFailed`,
/// and the allocator adds 1 to its count `refused`.
fn append_bytes<A: Allocator>(
    allocator: &mut A,
    list: &mut Vec<u8>,
    bytes: &[u8],
) -> Result<(), FrameError> {
    for byte in bytes {
        if allocator.keep(list, *byte).is_some() {
            return Err(FrameError::AllocationFailed);
        }
    }
    Ok(())
}

/// Replaces the contents of `table` and `ends` by those for a message whose only segment has
/// `words` words: the segment's size, and the number of words up to its end.
fn set_single_segment<A: Allocator>(
    allocator: &mut A,
    words: u32,
    table: &mut Vec<u8>,
    ends: &mut Vec<usize>,
) -> Result<(), FrameError> {
    table.clear();
    ends.clear();
    append_bytes(allocator, table, words.to_le_bytes().as_slice())?;
    if allocator.keep(ends, words as usize).is_some() {
        return Err(FrameError::AllocationFailed);
    }
    Ok(())
}

/// Reads all of `input` as the words of a message's only segment into `into`, whose memory is
/// reused. From an input without bytes, reads a segment of no words. Precondition: `input` hasn't
/// failed.
///
/// Refusals: `MessageTooLong(n)` if there are more than `max_words` words, or more than 2^32 - 1,
/// the most that a segment can have. Here n is the number of the first word that is too many,
/// counted from 1; no word after that one is read. `Truncated` if the bytes end inside a word.
/// `ReadFailed` exactly if the input failed. `AllocationFailed` if memory ran out. After a refusal
/// `into` has no segments.
///
/// The memory taken grows with the bytes that arrive, to at most twice as many bytes, or 4 KiB if
/// that is more. Takes memory only if the message has more words than each message that this call
/// read into `into` before. Memory for the bytes read comes from the heap; only if the heap has
/// none, it is requested from `allocator`. Memory for the segment's size and end is always
/// requested from `allocator`. If the refusal is `AllocationFailed`, adds 1 to the allocator's
/// count `refused`; otherwise leaves this count unchanged.
///
/// # Preconditions
///
/// ```text
/// requires { R.has_failed input.old ≡ false }
/// ```
pub fn read_segment_into_with<A: Allocator, R: Input>(
    allocator: &mut A,
    input: &mut R,
    max_words: u64,
    into: &mut OwnedSegments,
) -> Result<(), FrameError> {
    into.count = 0;
    let most = max_words.min(MAX_WORDS) as usize;
    let beyond = 8 * most + 8;
    let size = read_to_end(allocator, input, &mut into.words, beyond)?;
    if size == beyond {
        return Err(FrameError::MessageTooLong(most as u64 + 1));
    }
    if size % 8 != 0 {
        return Err(FrameError::Truncated);
    }
    set_single_segment(
        allocator,
        (size / 8) as u32,
        &mut into.table,
        &mut into.ends,
    )?;
    into.count = 1;
    Ok(())
}

/// Like `read_segment_into_with`, without an allocator: all memory comes from the heap.
/// Precondition: `input` hasn't failed.
///
/// # Preconditions
///
/// ```text
/// requires { R.has_failed input.old ≡ false }
/// ```
pub fn read_segment_into<R: Input>(
    input: &mut R,
    max_words: u64,
    into: &mut OwnedSegments,
) -> Result<(), FrameError> {
    let mut heap = HeapAllocator::new(*into.words.allocator(), 0);
    read_segment_into_with(&mut heap, input, max_words, into)
}
