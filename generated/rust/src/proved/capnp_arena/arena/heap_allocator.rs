//! Segments on the heap.

use crate::proved::capnp_arena::arena::{
    push_or_count_refusal, Allocator, Segment, MAX_SEGMENT_WORDS,
};
use crate::proved::capnp_words::error::ErrorKind;
use crate::proved::support::alloc::Global;
use crate::proved::support::vec::Vec;

/// A segment on the heap.
pub struct HeapSegment {
    bytes: Vec<u8>,
}

impl Segment for HeapSegment {
    #[inline]
    fn empty(alloc: Global) -> Self {
        HeapSegment {
            bytes: Vec::new(alloc),
        }
    }

    #[inline(always)]
    fn len(&self) -> usize {
        self.bytes.len()
    }

    #[inline]
    fn bytes(&self) -> &[u8] {
        self.bytes.as_slice()
    }

    #[inline]
    fn bytes_mut(&mut self) -> &mut [u8] {
        self.bytes.as_mut_slice()
    }

    /// Does nothing: all bytes are initialized from the start.
    #[inline(always)]
    fn make_ready(&mut self, _bytes: usize) {}
}

/// Makes segments on the heap, each of `words` words, or of as many as requested if that is more.
pub struct HeapAllocator {
    alloc: Global,
    words: u32,
    refused: u64,
}

impl HeapAllocator {
    /// Makes an allocator that has refused nothing yet. Each of its segments has at least `words`
    /// words. Precondition: `words` is at most 536,870,911.
    ///
    /// # Preconditions
    ///
    /// ```text
    /// requires { words ≤ max_segment_words }
    /// ```
    #[inline]
    pub fn new(alloc: Global, words: u32) -> Self {
        HeapAllocator {
            alloc,
            words,
            refused: 0,
        }
    }
}

impl Allocator for HeapAllocator {
    type Segment = HeapSegment;

    #[inline(always)]
    fn keeps_first_in_arena() -> bool {
        false
    }

    #[inline]
    fn allocate_segment(&mut self, min_words: u32) -> Result<HeapSegment, ErrorKind> {
        if min_words > MAX_SEGMENT_WORDS {
            return Err(ErrorKind::MessageTooLarge(min_words as usize));
        }
        let words = self.words.max(min_words);
        match Vec::from_elem(self.alloc, 0u8, 8 * words as usize) {
            Ok(bytes) => Ok(HeapSegment { bytes }),
            Err(_) => {
                self.refused = self.refused.saturating_add(1);
                Err(ErrorKind::AllocationFailed)
            }
        }
    }

    #[inline]
    fn deallocate_segment(&mut self, segment: HeapSegment, _used_words: u32) {
        drop(segment);
    }

    #[inline]
    fn keep<T>(&mut self, list: &mut Vec<T>, row: T) -> Option<T> {
        push_or_count_refusal(list, row, &mut self.refused)
    }

    #[inline]
    fn refused(&self) -> u64 {
        self.refused
    }
}
