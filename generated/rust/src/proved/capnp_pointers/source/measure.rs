//! Reads one object of a message only for its size.

use super::Source;
use crate::proved::capnp_arena_traits::arena::ReaderArena;
use crate::proved::capnp_pointers::nesting::levels_left;
use crate::proved::capnp_pointers::object::{Object, Place, PointerWord, Purpose};
use crate::proved::capnp_words::error::ErrorKind;
use crate::proved::capnp_words::read_limiter::ReadLimiter;

impl<'a, A: ReaderArena> Source<'a, A> {
    /// Reads the object that the pointer at `place` leads to, but none of its children, only for
    /// its size (encoding specification, "Structs", "Lists", "Inter-Segment Pointers" and
    /// "Capabilities (Interfaces)"). Precondition: `place.bytes` has exactly the whole words of
    /// segment `place.segment` of `self`, fewer than 2^32.
    ///
    /// If the word at `place` is zero, or `place` is outside of its segment, returns
    /// `Object::Null`, and counts and charges nothing in `lim`. Any other pointer takes a level,
    /// even one to a capability, and is refused if `nesting_limit` is below 1. Counts the pointer
    /// in `lim` as followed, and charges the words of its landing pads and those that the object
    /// claims, each before it is read. A list of void may be outside of its segment and costs
    /// nothing; the number of elements without width isn't charged. If the source is a default
    /// value, or an arena that doesn't charge, such as one being built, `lim` is unchanged.
    ///
    /// Refuses with the first fault found: `MessageIsTooDeeplyNested`, before the pointer is
    /// counted; `InvalidSegmentId`, `MessageContainsOutOfBoundsPointer`,
    /// `MalformedDoubleFarPointer`, `UnknownPointerType`, `CantHandleNonStructInlineComposite`,
    /// `InlineCompositeListsElementsOverrunItsWordCount`, `TriedToReadFromNullArena` for a far
    /// pointer in a default value, or `ReadLimitExceeded`. What was charged before stays charged.
    ///
    /// # Preconditions
    ///
    /// ```text
    /// requires held { IsHeld (source_start A.ReaderArena self).segments place }
    /// ```
    #[inline(never)]
    pub fn measure_object(
        self,
        place: Place<'a>,
        nesting_limit: i32,
        lim: &mut ReadLimiter,
    ) -> Result<Object<'a>, ErrorKind> {
        self.read_for_purpose(Purpose::Size, place, nesting_limit, lim)
    }

    /// Reads the object that `pointer` leads to only for its size, like `measure_object`. Returns
    /// the position, in words, where the object starts in the pointer's segment. Preconditions:
    /// `pointer.word` is the word at `pointer.place`, and itself the pointer to a struct, or to a
    /// list that is neither of void nor of structs, neither far nor null; the object claims `words`
    /// words; `pointer.place` is as for `read_object`.
    ///
    /// # Preconditions
    ///
    /// ```text
    /// requires word { IsWordRead (pointer_at A.ReaderArena self pointer) pointer }
    /// requires near { kind pointer.word.0 < 2 }
    /// requires of_bits { IsVoidList pointer.word.0 → ⊥ }
    /// requires untagged { IsStructList pointer.word.0 → ⊥ }
    /// requires claimed { words ≡ claimed_words pointer.word.0 }
    /// ```
    #[inline(always)]
    pub fn measure_near(
        self,
        pointer: PointerWord<'a>,
        words: u32,
        lim: &mut ReadLimiter,
    ) -> Result<u32, ErrorKind> {
        if levels_left(pointer.nesting_limit) == 0 {
            return Err(ErrorKind::MessageIsTooDeeplyNested);
        }
        self.enter_near(pointer, words, lim)
    }
}
