//! An allocator for making one copy after another: it reuses the memory of the last copy.

use crate::proved::capnp_arena::arena::{
    push_or_count_refusal, Allocator, Segment, MAX_SEGMENT_WORDS,
};
use crate::proved::capnp_words::error::ErrorKind;
use crate::proved::support::alloc::{AllocError, Global};
use crate::proved::support::vec::Vec;
use core::mem;

/// At least this many bytes are zeroed at a time, unless fewer are left. They fit in a processor's
/// cache, so they are still there when a copy overwrites them.
const PIECE: usize = 64 * 1024;

/// A segment on the heap, whose memory can be reused. Reserves all its memory at once, and zeroes
/// the memory as words are allocated, 64 KiB or more at a time. Never touches the memory after the
/// zeroed bytes.
pub struct CopySegment {
    /// The bytes that are zeroed and ready for use. Has capacity for `unready` more.
    bytes: Vec<u8>,
    /// The number of further bytes of the segment, which aren't zeroed yet.
    unready: usize,
}

impl CopySegment {
    /// Zeroes further bytes until at least the first `bytes` bytes are ready for use. Precondition:
    /// the segment has `bytes` bytes or more.
    ///
    /// # Preconditions
    ///
    /// ```text
    /// requires { bytes ≤ length (copy_content self.old) }
    /// ```
    #[cold]
    #[inline(never)]
    fn zero_up_to(&mut self, bytes: usize) {
        let missing = bytes.saturating_sub(self.bytes.len());
        let more = missing.max(PIECE).min(self.unready);
        let ready = self.bytes.len() + more;
        self.unready -= more;
        match self.bytes.resize(ready, 0) {
            Ok(()) => {}
            // Can't happen: it has the capacity for them.
            Err(AllocError) => {}
        }
    }
}

impl Segment for CopySegment {
    fn empty(alloc: Global) -> Self {
        CopySegment {
            bytes: Vec::new(alloc),
            unready: 0,
        }
    }

    fn len(&self) -> usize {
        self.bytes.len() + self.unready
    }

    fn bytes(&self) -> &[u8] {
        self.bytes.as_slice()
    }

    fn bytes_mut(&mut self) -> &mut [u8] {
        self.bytes.as_mut_slice()
    }

    #[inline(always)]
    fn make_ready(&mut self, bytes: usize) {
        if bytes > self.bytes.len() {
            self.zero_up_to(bytes);
        }
    }
}

/// Allocates segments on the heap, each of the requested size. Keeps the memory of the segment that
/// was deallocated last, and uses it for the next segment. So a message of one segment takes
/// nothing from the heap if it fits in that memory.
pub struct CopyMemory {
    alloc: Global,
    kept: Vec<u8>,
    refused: u64,
}

impl CopyMemory {
    /// Makes an allocator that keeps no memory yet, and has refused nothing.
    pub fn new(alloc: Global) -> Self {
        CopyMemory {
            alloc,
            kept: Vec::new(alloc),
            refused: 0,
        }
    }
}

impl Allocator for CopyMemory {
    type Segment = CopySegment;

    #[inline(always)]
    fn keeps_first_in_arena() -> bool {
        true
    }

    fn allocate_segment(&mut self, min_words: u32) -> Result<CopySegment, ErrorKind> {
        if min_words > MAX_SEGMENT_WORDS {
            return Err(ErrorKind::MessageTooLarge(min_words as usize));
        }
        let mut bytes = mem::replace(&mut self.kept, Vec::new(self.alloc));
        bytes.clear();
        let unready = 8 * min_words as usize;
        match bytes.reserve(unready) {
            Ok(()) => Ok(CopySegment { bytes, unready }),
            Err(AllocError) => {
                self.refused = self.refused.saturating_add(1);
                Err(ErrorKind::AllocationFailed)
            }
        }
    }

    fn deallocate_segment(&mut self, segment: CopySegment, _used_words: u32) {
        let CopySegment { bytes, unready: _ } = segment;
        self.kept = bytes;
    }

    fn keep<T>(&mut self, list: &mut Vec<T>, row: T) -> Option<T> {
        push_or_count_refusal(list, row, &mut self.refused)
    }

    fn refused(&self) -> u64 {
        self.refused
    }
}
