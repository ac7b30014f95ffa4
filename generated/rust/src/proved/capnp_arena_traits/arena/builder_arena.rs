//! Arenas for writing.

use crate::proved::capnp_arena_traits::arena::{ReaderArena, SegmentId, WordPlace};
use crate::proved::capnp_words::error::ErrorKind;

pub mod sealed {
    pub trait Closed {}
}

/// An arena that can be written. In this repository `BuilderArenaImpl` of `capnp_arena` and
/// `LentArena` of `capnp_lent_arena` implement this trait. `sealed::Closed` is public, so another
/// crate can implement both traits, if it proves the contracts of all calls and the laws below.
pub trait BuilderArena: ReaderArena + sealed::Closed {
    /// Lends the bytes of the allocated words of segment `id` for writing. The segment's words that
    /// aren't allocated stay zero. Precondition: segment `id` exists.
    ///
    /// # Preconditions
    ///
    /// ```text
    /// requires { id < length (Self.segments self.old) }
    /// ```
    fn segment_mut(&mut self, id: u32) -> &mut [u8];

    /// Lends the bytes of the allocated words of segment `id` for writing. Returns `None`, and
    /// leaves the arena unchanged, exactly if no segment has this number.
    ///
    /// This contract doesn't state how the arena changes when the bytes are written; only test
    /// cases show that. If the segment exists, `segment_mut` lends the same bytes, and its contract
    /// states exactly what the arena is afterwards.
    fn allocated_mut(&mut self, id: u32) -> Option<&mut [u8]>;

    /// Returns word `at` of segment `id`. Precondition: word `at` of segment `id` is allocated.
    ///
    /// # Preconditions
    ///
    /// ```text
    /// requires { IsPlace (view self.now).words id at }
    /// ```
    fn get_word(&self, id: u32, at: u32) -> u64;

    /// Writes `word` at position `at` of segment `id`. Precondition: word `at` of segment `id` is
    /// allocated.
    ///
    /// # Preconditions
    ///
    /// ```text
    /// requires { IsPlace (view self.old).words id at }
    /// ```
    fn put_word(&mut self, id: u32, at: u32, word: u64);

    /// Copies `n` words from place `from` to place `to`, in the same segment or another one; the
    /// two ranges may overlap. If `n` is 0, nothing changes. Preconditions: segment `from.segment`
    /// has at least `from.at + n` allocated words; segment `to.segment` has at least `to.at + n`.
    ///
    /// # Preconditions
    ///
    /// ```text
    /// requires there { from.at + n ≤ length (segment (view self.old).words from.segment) }
    /// requires inside { to.at + n ≤ length (segment (view self.old).words to.segment) }
    /// ```
    fn move_words(&mut self, from: WordPlace, to: WordPlace, n: u32);

    /// Allocates `amount` words after the allocated ones of segment `id`, and returns their
    /// position. The new words are zero. Returns `None`, and changes nothing, if the segment has no
    /// room for them. Precondition: segment `id` exists.
    ///
    /// # Preconditions
    ///
    /// ```text
    /// requires { id < length (view self.old).words }
    /// ```
    fn allocate(&mut self, id: u32, amount: u32) -> Option<u32>;

    /// Allocates `amount` words in the first segment with room, in order of number. If no segment
    /// has room, allocates them in a new one, for which it requests `amount` words. Returns the
    /// segment and the position of the new words, which are zero.
    ///
    /// Refusals, if no segment has room: `MessageTooLarge(usize::MAX)` if there are 4,294,967,295
    /// segments; `MessageTooLarge(amount)` if `amount` is above 536,870,911; `AllocationFailed` if
    /// memory ran out. A refusal changes nothing, except that `AllocationFailed` adds 1 to
    /// `refused`.
    fn allocate_anywhere(&mut self, amount: u32) -> Result<(SegmentId, u32), ErrorKind>;

    /// Returns the arena itself, for reading.
    fn as_reader(&self) -> &Self;

    /// How often the arena's allocator has refused memory, at most `u64::MAX`.
    fn refused(&self) -> u64;
}
