//! An allocator that refuses memory where a test wants it to.

use capnp_proved::capnp_arena::arena::{
    push_or_count_refusal, Allocator, HeapAllocator, HeapSegment, Segment, MAX_SEGMENT_WORDS,
};
use capnp_proved::capnp_words::error::ErrorKind;
use capnp_proved::support::vec::Vec;
use std::cell::Cell;

/// Which requests for memory are granted, if the heap has it.
#[derive(Clone, Copy)]
pub enum Granted {
    /// This number of requests, from the first one on, whether for a segment or for a row of a
    /// list.
    Requests(u64),
    /// All requests for segments, and this number of requests for rows of lists, from the first one
    /// on.
    Rows(u64),
}

/// An allocator that makes segments on the heap. Counts the requests that it grants and refuses,
/// and notes the segments that are returned to it.
pub struct TestAllocator<'a> {
    heap: HeapAllocator,
    granted: Granted,
    returned: &'a Cell<u64>,
    refused: u64,
}

impl<'a> TestAllocator<'a> {
    /// Makes an allocator that has refused nothing yet. `returned` will hold, for each returned
    /// segment in turn, the number of its words and the number of its used words, each as two
    /// decimal digits.
    pub fn new(heap: HeapAllocator, granted: Granted, returned: &'a Cell<u64>) -> Self {
        TestAllocator {
            heap,
            granted,
            returned,
            refused: 0,
        }
    }

    // Uses up one grant of a segment; returns `false` if none is left.
    fn try_grant_segment(&mut self) -> bool {
        match self.granted {
            Granted::Requests(0) => false,
            Granted::Requests(n) => {
                self.granted = Granted::Requests(n - 1);
                true
            }
            Granted::Rows(_) => true,
        }
    }

    // Uses up one grant of a row; returns `false` if none is left.
    fn try_grant_row(&mut self) -> bool {
        match self.granted {
            Granted::Requests(0) | Granted::Rows(0) => false,
            Granted::Requests(n) => {
                self.granted = Granted::Requests(n - 1);
                true
            }
            Granted::Rows(n) => {
                self.granted = Granted::Rows(n - 1);
                true
            }
        }
    }
}

impl Allocator for TestAllocator<'_> {
    type Segment = HeapSegment;

    fn keeps_first_in_arena() -> bool {
        false
    }

    fn allocate_segment(&mut self, min_words: u32) -> Result<HeapSegment, ErrorKind> {
        if min_words > MAX_SEGMENT_WORDS {
            return Err(ErrorKind::MessageTooLarge(min_words as usize));
        }
        if self.try_grant_segment() {
            if let Ok(segment) = self.heap.allocate_segment(min_words) {
                return Ok(segment);
            }
        }
        self.refused = self.refused.saturating_add(1);
        Err(ErrorKind::AllocationFailed)
    }

    fn deallocate_segment(&mut self, segment: HeapSegment, used_words: u32) {
        let words = (segment.bytes().len() / 8) as u64;
        for number in [words, u64::from(used_words)] {
            let returned = self.returned.get();
            self.returned
                .set(returned.wrapping_mul(100).wrapping_add(number));
        }
        drop(segment);
    }

    fn keep<T>(&mut self, list: &mut Vec<T>, row: T) -> Option<T> {
        if !self.try_grant_row() {
            self.refused = self.refused.saturating_add(1);
            return Some(row);
        }
        push_or_count_refusal(list, row, &mut self.refused)
    }

    fn refused(&self) -> u64 {
        self.refused
    }
}
