//! Reads a message from a stream of bytes (encoding specification, "Serialization Over a Stream").

use super::frame_error::FrameError;
use super::owned_segments::OwnedSegments;
use super::MAX_SEGMENTS;
use crate::proved::capnp_arena::arena::{Allocator, HeapAllocator, ReaderSegments};
use crate::proved::capnp_framing::devices::{DeviceFault, Input};
use crate::proved::support::alloc::{AllocError, Global};
use crate::proved::support::vec::Vec;

/// The most bytes by which memory grows before more bytes arrive. A table may announce more words
/// than follow it, so it isn't trusted for more memory than this.
const PIECE: usize = 1 << 18;

/// Reads until `to` is full or the input ends, and returns the number of bytes read.
///
/// # Preconditions
///
/// ```text
/// requires { R.has_failed input.old ≡ false }
/// ```
pub(super) fn read_up_to<R: Input>(input: &mut R, to: &mut [u8]) -> Result<usize, DeviceFault> {
    let mut n = 0;
    while n < to.len() {
        let more = input.read(&mut to[n..])?;
        if more == 0 {
            return Ok(n);
        }
        n += more;
    }
    Ok(n)
}

/// If `to` has no bytes after the first `n`, grows `to` by `more` bytes, or by `PIECE` bytes if
/// that is fewer. Takes their memory from the heap. If the heap has none, grows `to` like
/// `grow`.
///
/// # Preconditions
///
/// ```text
/// requires within { n ≤ length to.old.items }
/// requires some { 0 < more }
/// ```
pub(super) fn grow_if_full<A: Allocator>(
    allocator: &mut A,
    to: &mut Vec<u8>,
    n: usize,
    more: usize,
) -> Result<(), FrameError> {
    if n < to.len() {
        return Ok(());
    }
    match to.resize(n + more.min(PIECE), 0) {
        Ok(()) => Ok(()),
        Err(AllocError) => grow(allocator, to, n),
    }
}

/// Grows `to` by one byte or more, and leaves its first `n` bytes unchanged. If there is no memory
/// for one byte, refuses with `AllocationFailed`, and the allocator adds 1 to its count `refused`.
///
/// # Preconditions
///
/// ```text
/// requires { n ≤ length to.old.items }
/// ```
#[cold]
#[inline(never)]
fn grow<A: Allocator>(allocator: &mut A, to: &mut Vec<u8>, n: usize) -> Result<(), FrameError> {
    if allocator.keep(to, 0u8).is_some() {
        return Err(FrameError::AllocationFailed);
    }
    // Uses the whole capacity.
    let room = to.capacity();
    let _ = to.resize(room, 0);
    Ok(())
}

/// Reads into `to` from position `start` up to `end`, or until the input ends, and returns the
/// number of bytes read.
///
/// # Preconditions
///
/// ```text
/// requires works { R.has_failed input.old ≡ false }
/// requires order { start ≤ end }
/// requires inside { end ≤ length to.old }
/// ```
pub(super) fn read_between<R: Input>(
    input: &mut R,
    to: &mut [u8],
    start: usize,
    end: usize,
) -> Result<usize, DeviceFault> {
    read_up_to(input, &mut to[start..end])
}

/// Reads into all bytes of `to` from position `start` up to `end`. Refuses with `Truncated` if the
/// input ends first.
///
/// # Preconditions
///
/// ```text
/// requires works { R.has_failed input.old ≡ false }
/// requires order { start ≤ end }
/// requires inside { end ≤ length to.old }
/// ```
fn read_exact_between<R: Input>(
    input: &mut R,
    to: &mut [u8],
    start: usize,
    end: usize,
) -> Result<(), FrameError> {
    match read_between(input, to, start, end) {
        Ok(n) if n == end - start => Ok(()),
        Ok(_) => Err(FrameError::Truncated),
        Err(DeviceFault) => Err(FrameError::ReadFailed),
    }
}

/// Reads `size` bytes to the front of `to`, which grows if it has to.
///
/// # Preconditions
///
/// ```text
/// requires { R.has_failed input.old ≡ false }
/// ```
#[inline(always)]
fn read_exact_to_front<A: Allocator, R: Input>(
    allocator: &mut A,
    input: &mut R,
    to: &mut Vec<u8>,
    size: usize,
) -> Result<(), FrameError> {
    let mut n = 0;
    while n < size {
        grow_if_full(allocator, to, n, size - n)?;
        let end = size.min(to.len());
        read_exact_between(input, to.as_mut_slice(), n, end)?;
        n = end;
    }
    Ok(())
}

/// Returns the number in the four bytes of `table` from position `at` on, the lowest byte first.
///
/// # Preconditions
///
/// ```text
/// requires { at + 4 ≤ length table.now }
/// ```
pub(super) fn number_at(table: &[u8], at: usize) -> u32 {
    u32::from_le_bytes([table[at], table[at + 1], table[at + 2], table[at + 3]])
}

/// Returns the total number of words of the segments from `first` up to, but not including, `end`,
/// by their sizes in `table`.
///
/// # Preconditions
///
/// ```text
/// requires inside { 4 * end ≤ length table.now }
/// requires few { end ≤ 512 }
/// requires order { first ≤ end }
/// ```
pub(super) fn words_between(table: &[u8], first: usize, end: usize) -> u64 {
    let mut words = 0;
    for i in first..end {
        words += u64::from(number_at(table, 4 * i));
    }
    words
}

/// Stores in `ends`, for each of the `count` segments with sizes in `table`, the number of words up
/// to the segment's end. Returns the number of all words.
///
/// # Preconditions
///
/// ```text
/// requires inside { 4 * count ≤ length table.now }
/// requires few { count ≤ 512 }
/// ```
fn segment_ends<A: Allocator>(
    allocator: &mut A,
    table: &[u8],
    count: usize,
    ends: &mut Vec<usize>,
) -> Result<usize, FrameError> {
    ends.clear();
    let mut sum = 0;
    for i in 0..count {
        sum += number_at(table, 4 * i) as usize;
        if allocator.keep(ends, sum).is_some() {
            return Err(FrameError::AllocationFailed);
        }
    }
    Ok(sum)
}

/// Does nothing; its contract states that each byte is below 256.
fn bytes_are_below_256(bytes: &[u8]) {}

/// Reads the first four bytes and returns the number of segments that they state; `None` if the
/// input is at its end.
///
/// # Preconditions
///
/// ```text
/// requires { R.has_failed input.old ≡ false }
/// ```
#[inline(always)]
fn read_segment_count<R: Input>(
    input: &mut R,
    first: &mut [u8; 4],
) -> Result<Option<usize>, FrameError> {
    match read_up_to(input, first) {
        Ok(0) => return Ok(None),
        Ok(4) => {}
        Ok(_) => return Err(FrameError::Truncated),
        Err(DeviceFault) => return Err(FrameError::ReadFailed),
    }
    bytes_are_below_256(first);
    let told = u64::from(u32::from_le_bytes(*first)) + 1;
    if told > MAX_SEGMENTS as u64 {
        return Err(FrameError::TooManySegments(told));
    }
    Ok(Some(told as usize))
}

/// Reads a message from the front of `input` into `into`, whose memory is reused, and leaves what
/// follows the message unread. Returns `true` if a message was read. Returns `false` if the input
/// is at its end; `into` has no segments then. Precondition: `input` hasn't failed.
///
/// Refusals, in this order: `Truncated` if there are fewer than four bytes; `TooManySegments(n)` if
/// there are n segments, and n is above 512; `Truncated` if the table is cut short, padding
/// included; `MessageTooLong(n)` if the segments have n words, and n is above `max_words`;
/// `Truncated` if the words are cut short. Also `ReadFailed` exactly if the input failed; and
/// `AllocationFailed` if memory ran out.
///
/// What has been read after a refusal: for `TooManySegments`, the four bytes of the number of
/// segments; for `MessageTooLong`, the table; for `Truncated`, all of the input; for all other
/// refusals, this is unspecified. Which segments `into` has after a refusal is unspecified, too.
///
/// The memory taken grows with the bytes that arrive, not with those that the table announces.
/// Takes memory only if the message has more segments, or more words, than each message that was
/// read into `into` before. Memory for the bytes read comes from the heap; only if the heap has
/// none, it is requested from `allocator`. So a limit of the allocator doesn't limit this memory.
/// Memory for the list of the segments' ends is always requested from `allocator`. If the refusal
/// is `AllocationFailed`, adds 1 to the allocator's count `refused`; otherwise leaves this count
/// unchanged.
///
/// # Preconditions
///
/// ```text
/// requires { R.has_failed input.old ≡ false }
/// ```
pub fn read_into_with<A: Allocator, R: Input>(
    allocator: &mut A,
    input: &mut R,
    max_words: u64,
    into: &mut OwnedSegments,
) -> Result<bool, FrameError> {
    into.count = 0;
    let mut first = [0u8; 4];
    let count = match read_segment_count(input, &mut first)? {
        Some(count) => count,
        None => return Ok(false),
    };
    let size = 4 * count + 4 * ((count + 1) % 2);
    read_exact_to_front(allocator, input, &mut into.table, size)?;
    let words = segment_ends(allocator, into.table.as_slice(), count, &mut into.ends)?;
    if words as u64 > max_words {
        return Err(FrameError::MessageTooLong(words as u64));
    }
    read_exact_to_front(allocator, input, &mut into.words, 8 * words)?;
    bytes_are_below_256(into.table.as_slice());
    bytes_are_below_256(into.words.as_slice());
    into.count = count;
    Ok(true)
}

/// Like `read_into_with`, without an allocator: all memory comes from the heap. Precondition:
/// `input` hasn't failed.
///
/// # Preconditions
///
/// ```text
/// requires { R.has_failed input.old ≡ false }
/// ```
pub fn read_into<R: Input>(
    input: &mut R,
    max_words: u64,
    into: &mut OwnedSegments,
) -> Result<bool, FrameError> {
    let mut heap = HeapAllocator::new(*into.words.allocator(), 0);
    read_into_with(&mut heap, input, max_words, into)
}

/// Reads a message from the front of `input`, and leaves what follows the message unread. Returns
/// `None` if the input is at its end. Precondition: `input` hasn't failed.
///
/// Refuses what `read_into` refuses, and has then read as much of the input as `read_into` would.
///
/// # Preconditions
///
/// ```text
/// requires { R.has_failed input.old ≡ false }
/// ```
pub fn read<R: Input>(
    alloc: Global,
    input: &mut R,
    max_words: u64,
) -> Result<Option<OwnedSegments>, FrameError> {
    let mut owned = OwnedSegments::new(alloc);
    if read_into(input, max_words, &mut owned)? {
        Ok(Some(owned))
    } else {
        Ok(None)
    }
}
