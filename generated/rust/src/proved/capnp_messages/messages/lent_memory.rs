//! An allocator that grants one segment, in memory that the caller lends.

use crate::proved::capnp_arena::arena::{push_or_count_refusal, Allocator, MAX_SEGMENT_WORDS};
use crate::proved::capnp_words::error::ErrorKind;
use crate::proved::support::vec::Vec;

/// Lent bytes, all zero. In contracts, a value of this type stands for the number of the bytes.
struct LentZeros<'a> {
    bytes: &'a mut [u8],
}

impl<'a> LentZeros<'a> {
    /// Wraps the lent `bytes`. Precondition: all of them are zero.
    ///
    /// # Preconditions
    ///
    /// ```text
    /// requires { bytes.old ≡ replicate (length bytes.old) 0 }
    /// ```
    fn new(bytes: &'a mut [u8]) -> Self {
        LentZeros { bytes }
    }

    /// The number of bytes.
    fn len(&self) -> usize {
        self.bytes.len()
    }

    /// Returns the bytes of the first `words` words. Precondition: there are that many words.
    ///
    /// # Preconditions
    ///
    /// ```text
    /// requires { 8 * words ≤ self }
    /// ```
    fn into_words(self, words: u32) -> &'a mut [u8] {
        let LentZeros { bytes } = self;
        &mut bytes[..8 * words as usize]
    }
}

/// An allocator that grants one segment of exactly the requested size, in lent memory. Refuses a
/// request that the memory is too small for, and may still grant a smaller request afterwards.
/// Refuses every request after it has granted a segment. Only `keep` takes other memory: the list
/// to which it appends grows on the heap.
pub struct LentMemory<'a> {
    memory: Option<LentZeros<'a>>,
    refused: u64,
}

impl<'a> LentMemory<'a> {
    /// Makes an allocator over `memory`. Precondition: all bytes of `memory` are zero.
    ///
    /// # Preconditions
    ///
    /// ```text
    /// requires { memory.old ≡ replicate (length memory.old) 0 }
    /// ```
    pub fn new(memory: &'a mut [u8]) -> Self {
        LentMemory {
            memory: Some(LentZeros::new(memory)),
            refused: 0,
        }
    }

    /// Lends the first `words` words, if the memory has that many and none of it was lent yet.
    /// Otherwise returns `None`, and changes nothing.
    fn lend(&mut self, words: u32) -> Option<&'a mut [u8]> {
        let memory = self.memory.as_ref()?;
        if memory.len() < 8 * words as usize {
            return None;
        }
        let memory = self.memory.take()?;
        Some(memory.into_words(words))
    }
}

impl<'a> Allocator for LentMemory<'a> {
    type Segment = &'a mut [u8];

    #[inline(always)]
    fn keeps_first_in_arena() -> bool {
        true
    }

    fn allocate_segment(&mut self, min_words: u32) -> Result<&'a mut [u8], ErrorKind> {
        if min_words > MAX_SEGMENT_WORDS {
            return Err(ErrorKind::MessageTooLarge(min_words as usize));
        }
        match self.lend(min_words) {
            Some(segment) => Ok(segment),
            None => {
                self.refused = self.refused.saturating_add(1);
                Err(ErrorKind::AllocationFailed)
            }
        }
    }

    /// Does nothing: the memory isn't lent a second time.
    fn deallocate_segment(&mut self, _segment: &'a mut [u8], _used_words: u32) {}

    fn keep<T>(&mut self, list: &mut Vec<T>, row: T) -> Option<T> {
        push_or_count_refusal(list, row, &mut self.refused)
    }

    fn refused(&self) -> u64 {
        self.refused
    }
}
