//! Counts the words and capabilities of a value being read, without reading its data.

use crate::proved::capnp_arena_traits::arena::ReaderArena;
use crate::proved::capnp_pointers::pointers::MessageSize;
use crate::proved::capnp_readers::readers::{PointerReader, StructReader};
use crate::proved::capnp_words::error::ErrorKind;
use crate::proved::capnp_words::read_limiter::ReadLimiter;

impl<'a, A: ReaderArena> PointerReader<'a, A> {
    /// Counts the words and the capabilities of the value that the pointer leads to, with all
    /// objects below it and without landing pads (encoding specification, "Structs" and "Lists").
    ///
    /// A null pointer has no words and no capabilities. For a list of structs, counts the words of
    /// the tag and of the elements, even if the list's pointer claims more words. Each pointer that
    /// isn't null takes a level, even a capability pointer. Counts each such pointer in `lim` as
    /// followed, and charges `lim` the words of its landing pads and the words that the pointer
    /// claims for its object, before it reads them. Doesn't refuse a list of void outside of its
    /// segment, and charges nothing for elements without width; so it may return a size for a
    /// pointer that other calls refuse. If the pointer is in a default value, or in an arena that
    /// is being built, `lim` is unchanged.
    ///
    /// Refuses with the first fault found: `MessageIsTooDeeplyNested`, `InvalidSegmentId`,
    /// `MessageContainsOutOfBoundsPointer`, `MalformedDoubleFarPointer`, `UnknownPointerType`,
    /// `CantHandleNonStructInlineComposite`, `InlineCompositeListsElementsOverrunItsWordCount`,
    /// `TriedToReadFromNullArena` for a far pointer in a default value, `ReadLimitExceeded`, or
    /// `MessageTooLarge(usize::MAX)` if the number of words doesn't fit 64 bits, or that of
    /// capabilities doesn't fit 32 bits. What was charged before stays charged.
    #[inline]
    pub fn total_size(&self, lim: &mut ReadLimiter) -> Result<MessageSize, ErrorKind> {
        self.pointer().total_size(lim)
    }
}

impl<'a, A: ReaderArena> StructReader<'a, A> {
    /// Counts the words and the capabilities of the struct, with all objects below it and without
    /// landing pads ("Structs").
    ///
    /// The sum of words starts at the number of the struct's own words: its data section, rounded
    /// up to whole words, and its pointers. These words aren't charged, and the struct itself takes
    /// no level. Counts, charges and refuses each of its pointers like `PointerReader::total_size`,
    /// in order.
    #[inline]
    pub fn total_size(&self, lim: &mut ReadLimiter) -> Result<MessageSize, ErrorKind> {
        let own_words = (u64::from(self.bits) + 63) / 64 + u64::from(self.pointer_count);
        let count = u32::from(self.pointer_count);
        self.pointers().total_size_of(count, own_words, lim)
    }
}
