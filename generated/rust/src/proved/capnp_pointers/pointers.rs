//! Pointers of a message, read in place: where they are, the sizes of what they lead to, and the
//! test for canonical form.

mod canonical;
mod canonical_answer;
mod canonical_fault;
mod sizes;
mod validate;
mod walk;

use crate::proved::capnp_arena_traits::arena::ReaderArena;
use crate::proved::capnp_pointers::nesting::one_level_less;
use crate::proved::capnp_pointers::object::{Object, Place, Purpose};
use crate::proved::capnp_pointers::source::Source;
use crate::proved::capnp_words::error::ErrorKind;
use crate::proved::capnp_words::read_limiter::ReadLimiter;
pub use canonical::is_last_word_used;
pub use canonical_fault::{CanonicalFault, CanonicalFaultReason};
pub use sizes::MessageSize;
pub use validate::Extent;

/// The place of a pointer in an arena.
#[derive(Clone, Copy, Debug, PartialEq, Eq)]
pub struct PointerPlace {
    /// The number of the segment.
    pub segment: u32,
    /// The position of the pointer, in words.
    pub word: u32,
}

/// A pointer being read, with the bytes of its segment: a `PointerReader` without the calls that
/// return what it leads to.
///
/// Required of the fields: `place.bytes` has exactly the whole words of segment `place.segment` of
/// `source`, fewer than 2^32.
pub struct Pointer<'a, A: ReaderArena> {
    /// What the pointer is read from.
    pub source: Source<'a, A>,
    /// Where the pointer's word is.
    pub place: Place<'a>,
    /// The nesting limit: how many levels of structs and lists may be entered from here; none if it
    /// is below 1.
    pub nesting_limit: i32,
}

impl<'a, A: ReaderArena> Clone for Pointer<'a, A> {
    #[inline]
    fn clone(&self) -> Self {
        *self
    }
}

impl<'a, A: ReaderArena> Copy for Pointer<'a, A> {}

impl<'a, A: ReaderArena> Pointer<'a, A> {
    /// Returns a null pointer that isn't in any message: its source is `Source::Nothing`, its place
    /// word 0 of segment 0, and its nesting limit `i32::MAX`.
    #[inline]
    pub fn new_default() -> Self {
        Pointer {
            source: Source::Nothing,
            place: Place {
                segment: 0,
                bytes: &[],
                at: 0,
            },
            nesting_limit: i32::MAX,
        }
    }

    /// Returns the root pointer of a message, word 0 of segment 0 (encoding specification,
    /// "Messages"). Charges `lim` this one word. The pointer's nesting limit is the arena's.
    ///
    /// Refusals: `MessageContainsOutOfBoundsPointer` if segment 0 has no word;
    /// `InvalidSegmentId(0)` if there is no segment; `TriedToReadFromNullArena` in a `NullArena`;
    /// `ReadLimitExceeded` if the limiter has no word left. A refusal leaves the limiter unchanged.
    #[inline]
    pub fn get_root_from_arena(arena: &'a A, lim: &mut ReadLimiter) -> Result<Self, ErrorKind> {
        arena.contains_interval(0, 0, 1, lim)?;
        let place = PointerPlace {
            segment: 0,
            word: 0,
        };
        Ok(Self::at(arena, place, arena.nesting_limit()))
    }

    /// Returns the pointer at `place` of `arena`. Precondition: `place` is inside a segment of
    /// `arena`.
    ///
    /// # Preconditions
    ///
    /// ```text
    /// requires { IsPlace (message (A.segments arena.now)) place.segment place.word }
    /// ```
    #[inline]
    pub fn at(arena: &'a A, place: PointerPlace, nesting_limit: i32) -> Self {
        let Ok(bytes) = arena.get_segment(place.segment) else {
            return Self::new_default();
        };
        Pointer {
            source: Source::Arena(arena),
            place: Place {
                segment: u64::from(place.segment),
                bytes,
                at: place.word,
            },
            nesting_limit,
        }
    }

    /// Reads the object that the pointer leads to, but none of its children: for its value like
    /// `Source::read_object`, for its size like `Source::measure_object`.
    #[inline(always)]
    pub fn read(self, purpose: Purpose, lim: &mut ReadLimiter) -> Result<Object<'a>, ErrorKind> {
        self.source
            .read_for_purpose(purpose, self.place, self.nesting_limit, lim)
    }

    /// Returns the pointer `words` words after this one, in the same segment and with the same
    /// nesting limit. The position wraps around at 2^32, which is after the last word of any
    /// segment.
    #[inline(always)]
    pub fn past(self, words: u32) -> Self {
        let at = self.place.at.wrapping_add(words);
        Pointer {
            source: self.source,
            place: Place { at, ..self.place },
            nesting_limit: self.nesting_limit,
        }
    }

    /// Returns the pointer at `start`, which is inside the object that this pointer leads to. Its
    /// nesting limit is one less. Precondition: `start.bytes` has exactly the whole words of segment
    /// `start.segment` of the source, fewer than 2^32.
    ///
    /// # Preconditions
    ///
    /// ```text
    /// requires { IsHeld (source_start A.ReaderArena self.source).segments start }
    /// ```
    #[inline(always)]
    pub fn inside(self, start: Place<'a>) -> Self {
        Pointer {
            source: self.source,
            place: start,
            nesting_limit: one_level_less(self.nesting_limit),
        }
    }

    /// Whether the pointer's word is zero, or there is no such word.
    #[inline]
    pub fn is_null(&self) -> bool {
        self.place.word().is_null()
    }
}
