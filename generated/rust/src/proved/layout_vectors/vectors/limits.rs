//! An allocator with a limit on segments and rows.

use crate::proved::capnp_arena::arena::{Allocator, MAX_SEGMENT_WORDS};
use crate::proved::capnp_words::error::ErrorKind;
use crate::proved::support::vec::Vec;

/// Passes requests for segments to another allocator until it has made `segments` segments, and
/// requests to keep rows until it has kept `rows` rows. A row is an arena's entry for one of its
/// segments, in a list of the arena.
///
/// A request of more than 536,870,911 words is refused with `MessageTooLarge`, and doesn't count in
/// `refused`. Any other request for a segment, if it is beyond the limit or the other allocator
/// refuses it, is refused with `AllocationFailed`, and counts in `refused`. A row that isn't kept
/// is returned, and counts in `refused`, too. A segment that the other allocator makes from
/// returned memory counts like any other segment.
pub struct LimitedAllocator<A: Allocator> {
    inner: A,
    segments: u32,
    rows: u32,
    refused: u64,
}

impl<A: Allocator> LimitedAllocator<A> {
    /// Makes an allocator over `inner` with these limits, which has refused nothing yet.
    pub fn new(inner: A, segments: u32, rows: u32) -> Self {
        LimitedAllocator {
            inner,
            segments,
            rows,
            refused: 0,
        }
    }
}

impl<A: Allocator> Allocator for LimitedAllocator<A> {
    type Segment = A::Segment;

    fn keeps_first_in_arena() -> bool {
        A::keeps_first_in_arena()
    }

    fn allocate_segment(&mut self, min_words: u32) -> Result<A::Segment, ErrorKind> {
        if min_words > MAX_SEGMENT_WORDS {
            return Err(ErrorKind::MessageTooLarge(min_words as usize));
        }
        if self.segments > 0 {
            if let Ok(segment) = self.inner.allocate_segment(min_words) {
                self.segments -= 1;
                return Ok(segment);
            }
        }
        self.refused = self.refused.saturating_add(1);
        Err(ErrorKind::AllocationFailed)
    }

    fn deallocate_segment(&mut self, segment: A::Segment, used_words: u32) {
        self.inner.deallocate_segment(segment, used_words);
    }

    fn keep<T>(&mut self, list: &mut Vec<T>, row: T) -> Option<T> {
        if self.rows == 0 {
            self.refused = self.refused.saturating_add(1);
            return Some(row);
        }
        let returned = self.inner.keep(list, row);
        if returned.is_some() {
            self.refused = self.refused.saturating_add(1);
        } else {
            self.rows -= 1;
        }
        returned
    }

    fn refused(&self) -> u64 {
        self.refused
    }
}
