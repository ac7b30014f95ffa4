//! Arenas for reading.

use crate::proved::capnp_words::error::ErrorKind;
use crate::proved::capnp_words::read_limiter::ReadLimiter;

/// What readers need of a message: the words of its segments, whether a place is inside them, and
/// what reading costs. Sections "Messages", "Inter-Segment Pointers" and "Security Considerations"
/// of the encoding specification.
pub trait ReaderArena {
    /// Returns the bytes of the whole words of segment `id`: fewer than 2^35 bytes. Segments are
    /// numbered from 0.
    ///
    /// Refuses with `InvalidSegmentId(id)` if no segment has this number. Only an arena without any
    /// segment may refuse with `TriedToReadFromNullArena` instead, as `NullArena` does.
    fn get_segment(&self, id: u32) -> Result<&[u8], ErrorKind>;

    /// The nesting limit: how many structs and lists may be inside one another, from the root on. A
    /// limit of 0 or less allows none.
    fn nesting_limit(&self) -> i32;

    /// Whether reading is charged to a `ReadLimiter`, which then also counts the pointers followed.
    /// If not, every charge is granted and leaves the limiter unchanged.
    fn charges(&self) -> bool;

    /// The total number of whole words in all segments. In a message being built, only allocated
    /// words count.
    fn size_in_words(&self) -> usize;

    /// Returns the position `start + offset`, in words, of segment `id`.
    ///
    /// Refuses with `MessageContainsOutOfBoundsPointer` if `start` or the sum isn't from 0 to the
    /// segment's length in words, inclusive; with the refusal of `get_segment` if the segment
    /// doesn't exist.
    #[inline]
    fn check_offset(&self, id: u32, start: u32, offset: i32) -> Result<u32, ErrorKind> {
        let length = self.get_segment(id)?.len() / 8;
        match position_within(length, start, offset) {
            Some(at) => Ok(at),
            None => Err(ErrorKind::MessageContainsOutOfBoundsPointer),
        }
    }

    /// Charges `lim` for `amount` words, without testing that a segment has them. Readers call this
    /// after they have made that test themselves, or for elements without words, such as those of a
    /// list of empty structs.
    ///
    /// Refuses with `ReadLimitExceeded` if fewer than `amount` words are left in `lim`; a refusal
    /// leaves `lim` unchanged. If `charges` returns `false`, grants every amount and leaves `lim`
    /// unchanged.
    #[inline]
    fn amplified_read(&self, amount: u64, lim: &mut ReadLimiter) -> Result<(), ErrorKind> {
        if self.charges() {
            lim.can_read(amount as usize)
        } else {
            Ok(())
        }
    }

    /// Tests that the `size` words from position `start` on are inside segment `id`, and then
    /// charges `lim` for them. The interval may be empty, and may end at the segment's end.
    ///
    /// Refusals, which leave `lim` unchanged: `MessageContainsOutOfBoundsPointer` if the interval
    /// isn't inside the segment; the refusal of `get_segment` if the segment doesn't exist;
    /// `ReadLimitExceeded` if fewer than `size` words are left in `lim`, and `charges` returns
    /// `true`.
    #[inline]
    fn contains_interval(
        &self,
        id: u32,
        start: u32,
        size: usize,
        lim: &mut ReadLimiter,
    ) -> Result<(), ErrorKind> {
        let length = self.get_segment(id)?.len() / 8;
        if is_within(length, start, size) {
            if self.charges() {
                lim.can_read(size)
            } else {
                Ok(())
            }
        } else {
            Err(ErrorKind::MessageContainsOutOfBoundsPointer)
        }
    }
}

/// # Preconditions
///
/// ```text
/// requires { length < 2 ^ 32 }
/// ```
// The position `start + offset`, if both `start` and it are from 0 to `length`.
#[inline]
fn position_within(length: usize, start: u32, offset: i32) -> Option<u32> {
    let at = start as i64 + offset as i64;
    if start as usize <= length && 0 <= at && at <= length as i64 {
        Some(at as u32)
    } else {
        None
    }
}

// Whether `size` words from position `start` on end within `length` words.
#[inline]
fn is_within(length: usize, start: u32, size: usize) -> bool {
    start as usize <= length && size <= length - start as usize
}
