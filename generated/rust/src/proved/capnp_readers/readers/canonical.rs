//! Tests whether the value that a pointer leads to, or a struct that is being read, is in canonical
//! form.

use crate::proved::capnp_arena_traits::arena::ReaderArena;
use crate::proved::capnp_pointers::pointers::{is_last_word_used, CanonicalFault};
use crate::proved::capnp_pointers::source::Source;
use crate::proved::capnp_readers::readers::{PointerReader, StructReader};
use crate::proved::capnp_words::error::ErrorKind;
use crate::proved::capnp_words::read_limiter::ReadLimiter;

impl<'a, A: ReaderArena> PointerReader<'a, A> {
    /// Tests whether the pointer leads to a value in canonical form whose first object starts at
    /// `head`, a position in words in the pointer's segment (encoding specification,
    /// "Canonicalization").
    ///
    /// Returns `true` exactly if the words from `head` on are the canonical words of a value, and
    /// the pointer is the canonical pointer to that value. Such words have no far pointers and no
    /// capabilities; their objects are in the order of their pointers; sections and elements are no
    /// larger than needed; and the bits between the last element of a list and the end of its last
    /// word are zero. Words after the value, and other segments, don't matter. A null pointer is
    /// canonical; a pointer whose place isn't inside its segment isn't. After `true`, `head` is
    /// past the canonical words; otherwise it is unchanged.
    ///
    /// Tests this pointer and those below it in order. For each one that isn't null, counts it in
    /// `lim`, and charges `lim` the words that its object has according to the pointer, and one
    /// word for each list element without width. A struct and a list each take a level of the
    /// nesting limit.
    ///
    /// Never refuses if all of this holds: the pointer and words at some position of its segment,
    /// which may be another position than `head`, are canonical; `lim` covers these charges; and
    /// the nesting limit is at least the value's depth. Otherwise it may refuse, with the first
    /// fault found: `MessageContainsOutOfBoundsPointer`,
    /// `InlineCompositeListsOfNonStructTypeAreNotSupported`,
    /// `InlineCompositeListsElementsOverrunItsWordCount` or `ReadLimitExceeded`; or, if no level is
    /// left, `MessageIsTooDeeplyNestedOrContainsCycles` for a struct and `NestingLimitExceeded` for
    /// a list. Returns `false` at the first word that isn't canonical. After a refusal or `false`,
    /// what was charged before stays charged.
    #[inline]
    pub fn is_canonical(&self, lim: &mut ReadLimiter, head: &mut u32) -> Result<bool, ErrorKind> {
        Ok(self.canonical_fault(lim, head)?.is_none())
    }

    /// Like `PointerReader::is_canonical`, but returns `None` instead of `true`, and the fault
    /// instead of `false`: where and why the pointer doesn't lead to a value in canonical form
    /// whose first object starts at `head`.
    ///
    /// Returns the first fault found; the fault's reason holds for the word that the fault names.
    /// If both sections of a struct, or of the elements of a list, are wider than needed, the fault
    /// is the data section's.
    #[inline]
    pub fn canonical_fault(
        &self,
        lim: &mut ReadLimiter,
        head: &mut u32,
    ) -> Result<Option<CanonicalFault>, ErrorKind> {
        self.pointer().canonical_fault(lim, head)
    }
}

impl<'a, A: ReaderArena> StructReader<'a, A> {
    /// Tests whether three conditions hold: the struct starts at `read_head`, a position in words;
    /// its data section is whole words; its pointers lead to values in canonical form whose first
    /// object starts at `ptr_head` ("Canonicalization").
    ///
    /// If they hold, returns `true`, and moves `read_head` past the struct and `ptr_head` past the
    /// words of these values. Then also sets `data_trunc` to whether the data section is empty or
    /// its last word isn't zero, and `ptr_trunc` likewise for the pointer section. If the position
    /// after the struct is above `u32::MAX`, `read_head` becomes `u32::MAX`. After `false` or a
    /// refusal, both heads and both flags are unchanged.
    ///
    /// Returns `false` for a struct that isn't in any message. Charges nothing for such a struct,
    /// or for one that starts elsewhere than at `read_head` or whose data section isn't whole
    /// words. Tests, counts, charges and refuses each pointer like `PointerReader::is_canonical`,
    /// with the struct's own nesting limit; doesn't charge the struct's own words.
    #[inline]
    pub fn is_canonical(
        &self,
        lim: &mut ReadLimiter,
        read_head: &mut u32,
        ptr_head: &mut u32,
        data_trunc: &mut bool,
        ptr_trunc: &mut bool,
    ) -> Result<bool, ErrorKind> {
        if !self.has_start() {
            return Ok(false);
        }
        if self.bits % 64 != 0 || self.byte != 8 * u64::from(*read_head) {
            return Ok(false);
        }
        let count = u32::from(self.pointer_count);
        if !self.pointers().are_canonical(count, lim, ptr_head)? {
            return Ok(false);
        }
        let data_words = self.bits / 64;
        *data_trunc = is_last_word_used(self.pointers, *read_head, data_words);
        *ptr_trunc = is_last_word_used(self.pointers, self.pointers.at, count);
        *read_head = read_head.saturating_add(data_words + count);
        Ok(true)
    }

    /// Like `StructReader::is_canonical` with `head` for both positions: the struct has to start at
    /// `head`, and the first object that its pointers lead to has to start right after the struct.
    /// If the call returns `true`, it moves `head` past the struct and all objects below it.
    #[inline]
    pub fn is_canonical_shared(
        &self,
        lim: &mut ReadLimiter,
        head: &mut u32,
        data_trunc: &mut bool,
        ptr_trunc: &mut bool,
    ) -> Result<bool, ErrorKind> {
        if self.bits % 64 != 0 || self.byte != 8 * u64::from(*head) {
            return Ok(false);
        }
        let mut read_head = *head;
        let count = u32::from(self.pointer_count);
        let mut ptr_head = head.saturating_add(self.bits / 64 + count);
        match self.is_canonical(lim, &mut read_head, &mut ptr_head, data_trunc, ptr_trunc) {
            Ok(true) => {
                *head = ptr_head;
                Ok(true)
            }
            other => other,
        }
    }

    // Whether the struct starts somewhere: the one from nothing doesn't.
    #[inline]
    fn has_start(&self) -> bool {
        match self.source {
            Source::Nothing => false,
            Source::Arena(_) | Source::Default(_) => true,
        }
    }
}
