//! An allocator that grants no segment.

use crate::proved::capnp_arena::arena::{push_or_count_refusal, Allocator, MAX_SEGMENT_WORDS};
use crate::proved::capnp_words::error::ErrorKind;
use crate::proved::support::vec::Vec;
use core::marker::PhantomData;

/// Refuses every request. An arena with this allocator keeps the segments that it got from an
/// allocator `A`, and gets no further ones: it can allocate words only in these.
///
/// Refuses a request of more than 536,870,911 words with `MessageTooLarge`, and any other with
/// `AllocationFailed`. Its own `refused` counts each `AllocationFailed`; `refused` of the allocator
/// `A` doesn't count them. Drops each segment that is returned to it.
///
/// `BuilderArenaImpl::without_allocator` makes an arena with this allocator, and `with_allocator`
/// replaces this allocator by an allocator `A`.
pub struct NullAllocator<A: Allocator> {
    of: PhantomData<A>,
    refused: u64,
}

impl<A: Allocator> NullAllocator<A> {
    /// Makes an allocator that has refused nothing yet.
    #[inline]
    pub(in crate::proved::capnp_arena) fn new() -> Self {
        NullAllocator {
            of: PhantomData,
            refused: 0,
        }
    }
}

impl<A: Allocator> Allocator for NullAllocator<A> {
    type Segment = A::Segment;

    #[inline(always)]
    fn keeps_first_in_arena() -> bool {
        A::keeps_first_in_arena()
    }

    #[inline]
    fn allocate_segment(&mut self, min_words: u32) -> Result<A::Segment, ErrorKind> {
        if min_words > MAX_SEGMENT_WORDS {
            return Err(ErrorKind::MessageTooLarge(min_words as usize));
        }
        self.refused = self.refused.saturating_add(1);
        Err(ErrorKind::AllocationFailed)
    }

    #[inline]
    fn deallocate_segment(&mut self, segment: A::Segment, _used_words: u32) {
        drop(segment);
    }

    #[inline]
    fn keep<T>(&mut self, list: &mut Vec<T>, row: T) -> Option<T> {
        push_or_count_refusal(list, row, &mut self.refused)
    }

    #[inline]
    fn refused(&self) -> u64 {
        self.refused
    }
}
