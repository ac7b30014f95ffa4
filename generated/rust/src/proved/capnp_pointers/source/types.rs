//! The kind of object that a pointer leads to.

use super::Source;
use crate::proved::capnp_arena_traits::arena::ReaderArena;
use crate::proved::capnp_pointers::object::{Place, PointerWord};
use crate::proved::capnp_words::error::ErrorKind;
use crate::proved::capnp_words::read_limiter::ReadLimiter;
use crate::proved::capnp_words::wire_pointer::{PointerType, WirePointer, WirePointerKind};

impl<'a, A: ReaderArena> Source<'a, A> {
    /// Returns the kind of object that the pointer at `place` leads to. This is the kind of the
    /// word that describes the object: the pointer itself, its landing pad, or, for a double-far
    /// pointer, the second word of the landing pad. The object itself is neither checked nor
    /// charged.
    ///
    /// Precondition: `place.bytes` has exactly the whole words of segment `place.segment` of
    /// `self`, fewer than 2^32.
    ///
    /// If the word at `place` is zero, returns `PointerType::Null`, and counts and charges nothing
    /// in `lim`. Otherwise counts the pointer in `lim` as followed, and charges the words of its
    /// landing pads. Refusals: `UnexpectedFarPointer` if the word that describes the object is a
    /// far pointer; `UnknownPointerType` if that word is of no known kind; those of
    /// `Source::read_object` if the pointer can't be followed.
    ///
    /// # Preconditions
    ///
    /// ```text
    /// requires held { IsHeld (source_start A.ReaderArena self).segments place }
    /// ```
    #[inline]
    pub fn read_type(
        self,
        place: Place<'a>,
        nesting_limit: i32,
        lim: &mut ReadLimiter,
    ) -> Result<PointerType, ErrorKind> {
        self.type_at(place, nesting_limit, lim)
    }

    /// # Preconditions
    ///
    /// ```text
    /// requires { IsHeld (source_start A.ReaderArena self).segments place }
    /// ```
    // Reads the type of the pointer at a place.
    #[inline]
    fn type_at(
        self,
        place: Place<'a>,
        nesting_limit: i32,
        lim: &mut ReadLimiter,
    ) -> Result<PointerType, ErrorKind> {
        let word = place.word();
        if word.is_null() {
            return Ok(PointerType::Null);
        }
        let pointer = PointerWord {
            place,
            word,
            nesting_limit,
        };
        let found = self.follow(pointer, lim)?;
        described_type(found.word)
    }
}

// What a word describes.
#[inline]
fn described_type(word: WirePointer) -> Result<PointerType, ErrorKind> {
    match word.kind() {
        WirePointerKind::Struct => Ok(PointerType::Struct),
        WirePointerKind::List => Ok(PointerType::List),
        WirePointerKind::Far => Err(ErrorKind::UnexpectedFarPointer),
        WirePointerKind::Other if word.is_capability() => Ok(PointerType::Capability),
        WirePointerKind::Other => Err(ErrorKind::UnknownPointerType),
    }
}
