//! The memory of a message that is being built: one segment that grows like a `Vec`, so a built
//! message has one segment and no far pointers.

use crate::proved::capnp_arena::arena::{
    push_or_count_refusal, Allocator, Segment, MAX_SEGMENT_WORDS,
};
use crate::proved::capnp_words::error::ErrorKind;
use crate::proved::support::alloc::Global;
use crate::proved::support::vec::Vec as ListOf;
use rust_alloc::vec::Vec;

/// How many bytes are zeroed before they are needed: at least and at most, and no more than there is
/// memory for.
const FIRST: usize = 3 * 1024;
const PIECE: usize = 64 * 1024;

/// A segment of 536,870,911 words, with memory for those that are in use. If there is no memory for
/// more, the process aborts, like a `Vec` that grows.
pub struct GrowingSegment {
    bytes: Vec<u8>,
    length: usize,
}

impl GrowingSegment {
    #[cold]
    #[inline(never)]
    fn grow(&mut self, bytes: usize) {
        let ready = self.bytes.len() + self.bytes.len().clamp(FIRST, PIECE);
        let room = if bytes <= self.bytes.capacity() {
            self.bytes.capacity()
        } else {
            self.length
        };
        self.bytes.resize(bytes.max(ready.min(room)), 0);
    }
}

impl Segment for GrowingSegment {
    fn empty(_: Global) -> Self {
        GrowingSegment {
            bytes: Vec::new(),
            length: 0,
        }
    }

    #[inline(always)]
    fn len(&self) -> usize {
        self.length
    }

    #[inline(always)]
    fn bytes(&self) -> &[u8] {
        &self.bytes
    }

    #[inline(always)]
    fn bytes_mut(&mut self) -> &mut [u8] {
        &mut self.bytes
    }

    #[inline(always)]
    fn make_ready(&mut self, bytes: usize) {
        if bytes > self.bytes.len() {
            self.grow(bytes);
        }
    }
}

/// Grants one growing segment, and keeps its memory when it is returned. Refuses a second segment
/// until then, so a message has one, of at most 4 GiB.
pub struct Growing {
    /// The memory of the segment; `None` while it is granted.
    kept: Option<Vec<u8>>,
    refused: u64,
}

impl Growing {
    /// With memory for this number of bytes.
    pub fn new(bytes: usize) -> Self {
        Growing {
            kept: Some(Vec::with_capacity(bytes)),
            refused: 0,
        }
    }

    /// The allocated words of the segment that was returned.
    pub fn into_words(self) -> Vec<u8> {
        self.kept.unwrap_or_default()
    }
}

impl Allocator for Growing {
    type Segment = GrowingSegment;

    #[inline(always)]
    fn keeps_first_in_arena() -> bool {
        true
    }

    fn allocate_segment(&mut self, min_words: u32) -> Result<GrowingSegment, ErrorKind> {
        if min_words > MAX_SEGMENT_WORDS {
            return Err(ErrorKind::MessageTooLarge(min_words as usize));
        }
        let Some(mut bytes) = self.kept.take() else {
            self.refused = self.refused.saturating_add(1);
            return Err(ErrorKind::AllocationFailed);
        };
        bytes.clear();
        Ok(GrowingSegment {
            bytes,
            length: 8 * MAX_SEGMENT_WORDS as usize,
        })
    }

    fn deallocate_segment(&mut self, segment: GrowingSegment, used_words: u32) {
        let mut bytes = segment.bytes;
        bytes.truncate(8 * used_words as usize);
        self.kept = Some(bytes);
    }

    fn keep<T>(&mut self, list: &mut ListOf<T>, row: T) -> Option<T> {
        push_or_count_refusal(list, row, &mut self.refused)
    }

    fn refused(&self) -> u64 {
        self.refused
    }
}

#[cfg(test)]
mod tests {
    use super::*;
    use rust_alloc::vec;

    #[test]
    fn a_second_segment_is_refused() {
        let mut allocator = Growing::new(16);
        let mut segment = allocator.allocate_segment(1).unwrap();
        segment.make_ready(16);
        segment.bytes_mut()[8] = 1;
        let refused = allocator.allocate_segment(1).err();
        assert_eq!(
            (refused, allocator.refused()),
            (Some(ErrorKind::AllocationFailed), 1)
        );
        allocator.deallocate_segment(segment, 2);
        let again = allocator.allocate_segment(1).unwrap();
        assert!(again.bytes().is_empty(), "what was written is gone");
        allocator.deallocate_segment(again, 0);
        assert!(allocator.into_words().is_empty());
    }

    #[test]
    fn memory_that_is_there_is_used_up_first() {
        for (capacity, bytes, ready) in [
            (0, 8, 3072),
            (0, 4000, 4000),
            (328, 8, 328),
            (328, 328, 328),
            (328, 336, 3072),
            (1 << 20, 8, 3072),
        ] {
            let mut segment = Growing::new(capacity).allocate_segment(1).unwrap();
            segment.make_ready(bytes);
            assert_eq!(segment.bytes(), vec![0; ready]);
        }
    }
}
