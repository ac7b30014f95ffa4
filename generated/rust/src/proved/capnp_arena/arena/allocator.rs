//! Where a builder's segments come from.

use crate::proved::capnp_words::error::ErrorKind;
use crate::proved::support::alloc::Global;
use crate::proved::support::vec::Vec;

/// The bytes of a segment; their number never changes. The first of them are ready: they can be
/// read and written. The others are zero, and become ready as words are allocated.
pub trait Segment {
    /// A segment of no bytes, which takes no memory.
    fn empty(alloc: Global) -> Self;

    /// The number of bytes, ready or not.
    fn len(&self) -> usize;

    /// The bytes that are ready.
    fn bytes(&self) -> &[u8];

    /// The bytes that are ready, for writing.
    fn bytes_mut(&mut self) -> &mut [u8];

    /// Makes at least the first `bytes` bytes ready, and takes no memory. Precondition: the segment
    /// has at least `bytes` bytes.
    ///
    /// # Preconditions
    ///
    /// ```text
    /// requires { bytes ≤ length (content self.old) }
    /// ```
    fn make_ready(&mut self, bytes: usize);
}

/// Where segments come from and are returned to.
pub trait Allocator {
    /// The type of the segments. An arena returns each segment with `deallocate_segment`, or drops
    /// it if the arena is dropped without its allocator (see
    /// `BuilderArenaImpl::without_allocator`).
    type Segment: Segment;

    /// Whether an arena stores the row of its first segment (the segment, and what the arena knows
    /// of it) in the arena itself. The first segment then takes memory only if the allocator takes
    /// memory for it, but each access has to test whether it is to the first segment. If this
    /// function returns `false`, the arena stores all rows in a list. For one type of allocator,
    /// all calls return the same.
    fn keeps_first_in_arena() -> bool;

    /// Returns a segment of zeros, of at least `min_words` words and at most 536,870,911.
    ///
    /// Refusals: `MessageTooLarge(min_words)` if `min_words` is above 536,870,911;
    /// `AllocationFailed`, which adds 1 to `refused`, for any other reason.
    fn allocate_segment(&mut self, min_words: u32) -> Result<Self::Segment, ErrorKind>;

    /// Takes `segment` back. Its first `used_words` words were allocated. Preconditions: `segment`
    /// has at least `used_words` words; all bytes after these words are zero.
    ///
    /// # Preconditions
    ///
    /// ```text
    /// requires within { 8 * used_words ≤ length (Self.Segment.content segment) }
    /// requires clear { IsClearFrom used_words (Self.Segment.content segment) }
    /// ```
    fn deallocate_segment(&mut self, segment: Self::Segment, used_words: u32);

    /// Appends `row` to `list`, and returns `None`. If there is no memory for `row`, returns it,
    /// leaves `list` unchanged, and adds 1 to `refused`.
    fn keep<T>(&mut self, list: &mut Vec<T>, row: T) -> Option<T>;

    /// How often memory was refused, at most `u64::MAX`: once for each `AllocationFailed` of
    /// `allocate_segment`, and for each row that `keep` returned.
    fn refused(&self) -> u64;
}

/// Does the work of `Allocator::keep` for an allocator that counts in a field: appends `row` to
/// `list`, and returns `None`. If there is no memory for `row`, returns it, leaves `list`
/// unchanged, and adds 1 to `refused`.
#[inline]
pub fn push_or_count_refusal<T>(list: &mut Vec<T>, row: T, refused: &mut u64) -> Option<T> {
    match list.push(row) {
        Ok(()) => None,
        Err(e) => {
            *refused = refused.saturating_add(1);
            let row = e.value;
            Some(row)
        }
    }
}
