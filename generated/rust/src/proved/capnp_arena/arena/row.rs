//! A segment of a builder arena, and how much of it is allocated.

use crate::proved::capnp_arena::arena::{Segment, MAX_SEGMENT_WORDS};
use crate::proved::capnp_words::words;

/// Lends the first `n` bytes of `segment` for writing, and leaves the others unchanged.
///
/// # Preconditions
///
/// ```text
/// requires { n ≤ length (S.ready segment.old) }
/// ```
#[inline]
fn prefix_mut<S: Segment>(segment: &mut S, n: usize) -> &mut [u8] {
    let bytes = segment.bytes_mut();
    &mut bytes[..n]
}

/// A segment, and the number of its allocated words. The allocated words are ready to be read and
/// written; all other words are zero.
pub(in crate::proved::capnp_arena) struct Row<S: Segment> {
    pub(in crate::proved::capnp_arena) segment: S,
    pub(in crate::proved::capnp_arena) used: u32,
    /// No row of the range that ends with this one (module `bounds`) has more room than `bound`.
    pub(in crate::proved::capnp_arena) bound: u32,
}

impl<S: Segment> Row<S> {
    #[inline]
    pub(in crate::proved::capnp_arena) fn allocated(&self) -> &[u8] {
        &self.segment.bytes()[..8 * self.used as usize]
    }

    /// Lends the allocated words, for writing.
    #[inline]
    pub(in crate::proved::capnp_arena) fn allocated_mut(&mut self) -> &mut [u8] {
        let n = 8 * self.used as usize;
        prefix_mut(&mut self.segment, n)
    }

    /// # Preconditions
    ///
    /// ```text
    /// requires fresh { S.content segment ≡ zeros (length (S.content segment) / 8) }
    /// requires small { length (S.content segment) / 8 ≤ max_segment_words }
    /// ```
    #[inline]
    pub(in crate::proved::capnp_arena) fn new(segment: S) -> Row<S> {
        Row {
            segment,
            used: 0,
            bound: MAX_SEGMENT_WORDS,
        }
    }

    /// The number of words that can still be allocated.
    #[inline]
    pub(in crate::proved::capnp_arena) fn room(&self) -> u32 {
        (self.segment.len() / 8) as u32 - self.used
    }

    /// Whether `amount` more words can be allocated.
    #[inline]
    pub(in crate::proved::capnp_arena) fn has_room(&self, amount: u32) -> bool {
        self.used as usize + amount as usize <= self.segment.len() / 8
    }

    /// Allocates `amount` words after the allocated ones, and returns their position. The new words
    /// are zero. Precondition: the segment has room for them.
    ///
    /// # Preconditions
    ///
    /// ```text
    /// requires { self.old.used + amount ≤ capacity S.Segment self.old }
    /// ```
    #[inline]
    pub(in crate::proved::capnp_arena) fn allocate_fitting(&mut self, amount: u32) -> u32 {
        let at = self.used;
        self.segment.make_ready(8 * (at + amount) as usize);
        self.used = at + amount;
        at
    }

    /// Allocated word `at`.
    ///
    /// # Preconditions
    ///
    /// ```text
    /// requires { at < self.now.used }
    /// ```
    #[inline]
    pub(in crate::proved::capnp_arena) fn word(&self, at: u32) -> u64 {
        words::word_at(self.segment.bytes(), at as usize)
    }

    /// Writes `word` over allocated word `at`.
    ///
    /// # Preconditions
    ///
    /// ```text
    /// requires { at < self.old.used }
    /// ```
    #[inline(always)]
    pub(in crate::proved::capnp_arena) fn put_word(&mut self, at: u32, word: u64) {
        let start = 8 * at as usize;
        let bytes = self.segment.bytes_mut();
        words::put_word(&mut bytes[start..start + 8], 0, word);
    }

    /// Copies `n` words from position `from` of `row` to position `at` of this row.
    ///
    /// # Preconditions
    ///
    /// ```text
    /// requires there { from + n ≤ row.now.used }
    /// requires inside { at + n ≤ self.old.used }
    /// ```
    #[inline]
    pub(in crate::proved::capnp_arena) fn copy_from(
        &mut self,
        at: u32,
        row: &Row<S>,
        from: u32,
        n: u32,
    ) {
        let copied = words::word_range(row.allocated(), from as usize, n as usize);
        words::copy_words(self.allocated_mut(), at as usize, copied);
    }
}
