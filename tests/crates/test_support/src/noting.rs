//! An allocator that notes the requests that it gets.

use capnp_proved::capnp_arena::arena::{
    push_or_count_refusal, Allocator, HeapAllocator, HeapSegment, MAX_SEGMENT_WORDS,
};
use capnp_proved::capnp_words::error::ErrorKind;
use capnp_proved::support::vec::Vec as List;

/// A request to an allocator.
#[derive(Clone, Copy, Debug, PartialEq, Eq)]
pub enum Request {
    /// A segment of at least this many words.
    Segment(u32),
    /// Memory for one more row of a list.
    Row,
}

/// An allocator that makes segments on the heap, and notes each request, in order.
pub struct NotingAllocator {
    heap: HeapAllocator,
    requests: Vec<Request>,
    refused: u64,
}

impl NotingAllocator {
    /// Makes an allocator that has had no request yet.
    pub fn new(heap: HeapAllocator) -> Self {
        NotingAllocator {
            heap,
            requests: Vec::new(),
            refused: 0,
        }
    }

    /// Returns the requests, in order.
    pub fn requests(&self) -> &[Request] {
        &self.requests
    }
}

impl Allocator for NotingAllocator {
    type Segment = HeapSegment;

    fn keeps_first_in_arena() -> bool {
        false
    }

    fn allocate_segment(&mut self, min_words: u32) -> Result<HeapSegment, ErrorKind> {
        self.requests.push(Request::Segment(min_words));
        if min_words > MAX_SEGMENT_WORDS {
            return Err(ErrorKind::MessageTooLarge(min_words as usize));
        }
        self.heap.allocate_segment(min_words).map_err(|_| {
            self.refused = self.refused.saturating_add(1);
            ErrorKind::AllocationFailed
        })
    }

    fn deallocate_segment(&mut self, segment: HeapSegment, _used_words: u32) {
        drop(segment);
    }

    fn keep<T>(&mut self, list: &mut List<T>, row: T) -> Option<T> {
        self.requests.push(Request::Row);
        push_or_count_refusal(list, row, &mut self.refused)
    }

    fn refused(&self) -> u64 {
        self.refused
    }
}
