//! An allocator whose arenas store what they know of their first segment (its row) in themselves.

use capnp_proved::capnp_arena::arena::Allocator;
use capnp_proved::capnp_words::error::ErrorKind;
use capnp_proved::support::vec::Vec;

/// Does what `A` does, except that an arena stores the row of its first segment (the segment, and
/// what the arena knows of it) in the arena itself, and requests no memory for that row.
pub struct FirstInArena<A: Allocator> {
    inner: A,
}

impl<A: Allocator> FirstInArena<A> {
    /// Makes an allocator over `inner`.
    pub fn new(inner: A) -> Self {
        FirstInArena { inner }
    }

    /// Returns the allocator that does the work.
    pub fn inner(&self) -> &A {
        &self.inner
    }
}

impl<A: Allocator> Allocator for FirstInArena<A> {
    type Segment = A::Segment;

    fn keeps_first_in_arena() -> bool {
        true
    }

    fn allocate_segment(&mut self, min_words: u32) -> Result<A::Segment, ErrorKind> {
        self.inner.allocate_segment(min_words)
    }

    fn deallocate_segment(&mut self, segment: A::Segment, used_words: u32) {
        self.inner.deallocate_segment(segment, used_words);
    }

    fn keep<T>(&mut self, list: &mut Vec<T>, row: T) -> Option<T> {
        self.inner.keep(list, row)
    }

    fn refused(&self) -> u64 {
        self.inner.refused()
    }
}
