//! The segments of a message that was read.

use crate::proved::capnp_arena::arena::ReaderSegments;
use crate::proved::support::alloc::Global;
use crate::proved::support::vec::Vec;

/// The segments of a message that was read, each of whole words. Their memory can be reused for the
/// next message.
pub struct OwnedSegments {
    pub(super) count: usize,
    // The sizes of the segments in words, four bytes each, and what follows them.
    pub(super) table: Vec<u8>,
    // The number of words up to the end of each segment.
    pub(super) ends: Vec<usize>,
    // The words of the segments, in order, and what follows them.
    pub(super) words: Vec<u8>,
}

impl OwnedSegments {
    /// Makes a value without segments. Takes no memory.
    pub fn new(alloc: Global) -> Self {
        OwnedSegments {
            count: 0,
            table: Vec::new(alloc),
            ends: Vec::new(alloc),
            words: Vec::new(alloc),
        }
    }

    /// The number of words up to the end of segment `id`.
    ///
    /// # Preconditions
    ///
    /// ```text
    /// requires { id < self.now.count }
    /// ```
    fn end_of(&self, id: usize) -> usize {
        self.ends.as_slice()[id]
    }

    /// The number of words before segment `id`; if `id` is the number of segments, the number of
    /// words in all segments.
    ///
    /// # Preconditions
    ///
    /// ```text
    /// requires { id ≤ self.now.count }
    /// ```
    fn words_before(&self, id: usize) -> usize {
        if id == 0 {
            0
        } else {
            self.end_of(id - 1)
        }
    }

    /// The size in bytes of the frame that the segments were read from: its table with padding, and
    /// its words.
    pub fn size_in_bytes(&self) -> usize {
        let table = 4 + 4 * self.count + 4 * ((self.count + 1) % 2);
        table + 8 * self.words_before(self.count)
    }
}

impl ReaderSegments for OwnedSegments {
    fn get_segment(&self, id: u32) -> Option<&[u8]> {
        let id = id as usize;
        if id >= self.count {
            return None;
        }
        let start = self.words_before(id);
        let end = self.end_of(id);
        Some(&self.words.as_slice()[8 * start..8 * end])
    }

    fn len(&self) -> usize {
        self.count
    }
}

/// Segments behind a reference.
impl ReaderSegments for &OwnedSegments {
    fn get_segment(&self, id: u32) -> Option<&[u8]> {
        (**self).get_segment(id)
    }

    fn len(&self) -> usize {
        (**self).len()
    }
}
