//! Enters the object that a followed pointer leads to: checks and charges the words that the object
//! claims.

use super::{Found, Source};
use crate::proved::capnp_arena_traits::arena::ReaderArena;
use crate::proved::capnp_pointers::object::{Object, Place, Purpose};
use crate::proved::capnp_words::error::ErrorKind;
use crate::proved::capnp_words::read_limiter::ReadLimiter;
use crate::proved::capnp_words::wire_pointer::{words_for_elements, ElementSize, WirePointerKind};

// What following a pointer found, in the source that it is read from.
pub(in crate::proved::capnp_pointers) struct Entrance<'a, A: ReaderArena> {
    // What the object is read from.
    pub(in crate::proved::capnp_pointers) source: Source<'a, A>,
    // The word that describes the object, and where the object starts.
    pub(in crate::proved::capnp_pointers) found: Found<'a>,
    // The number of levels left: a struct and a list take one.
    pub(in crate::proved::capnp_pointers) depth: u32,
}

impl<'a, A: ReaderArena> Clone for Entrance<'a, A> {
    #[inline]
    fn clone(&self) -> Self {
        *self
    }
}

impl<'a, A: ReaderArena> Copy for Entrance<'a, A> {}

impl<'a, A: ReaderArena> Entrance<'a, A> {
    /// # Preconditions
    ///
    /// ```text
    /// requires level { purpose ≡ Size → 0 < self.depth }
    /// ```
    // Enters the object that a pointer leads to, which takes one of the levels. Precondition for
    // the size only: a level is left.
    #[inline(always)]
    pub(in crate::proved::capnp_pointers) fn enter(
        self,
        purpose: Purpose,
        lim: &mut ReadLimiter,
    ) -> Result<Object<'a>, ErrorKind> {
        match self.found.word.kind() {
            WirePointerKind::Struct => self.enter_struct(purpose, lim),
            WirePointerKind::List => self.enter_list(purpose, lim),
            WirePointerKind::Far => Err(ErrorKind::MalformedDoubleFarPointer),
            WirePointerKind::Other => {
                if self.found.word.is_capability() {
                    Ok(Object::Capability(self.found.word.cap_index()))
                } else {
                    Err(ErrorKind::UnknownPointerType)
                }
            }
        }
    }

    /// # Preconditions
    ///
    /// ```text
    /// requires { words ≡ claimed_words self.found.word.0 }
    /// ```
    // Checks and charges the words that an object claims.
    #[inline(always)]
    pub(in crate::proved::capnp_pointers) fn charge_claim(
        self,
        words: u32,
        lim: &mut ReadLimiter,
    ) -> Result<(), ErrorKind> {
        if self.depth == 0 {
            return Err(ErrorKind::MessageIsTooDeeplyNestedOrContainsCycles);
        }
        let end = u64::from(self.found.start.at) + u64::from(words);
        if end > u64::from(self.found.start.length()) {
            return Err(ErrorKind::MessageContainsOutOfBoundsPointer);
        }
        self.source.charge(u64::from(words), lim)
    }

    /// # Preconditions
    ///
    /// ```text
    /// requires { kind self.found.word.0 ≡ 0 }
    /// ```
    // Enters a struct.
    #[inline(always)]
    fn enter_struct(
        self,
        purpose: Purpose,
        lim: &mut ReadLimiter,
    ) -> Result<Object<'a>, ErrorKind> {
        self.charge_claim(self.found.word.struct_word_size(), lim)?;
        Ok(Object::Struct {
            start: self.found.start,
            size: self.found.word.struct_size(),
        })
    }

    /// # Preconditions
    ///
    /// ```text
    /// requires is_list { kind self.found.word.0 ≡ 1 }
    /// requires level { purpose ≡ Size → 0 < self.depth }
    /// ```
    // Enters a list.
    #[inline(always)]
    fn enter_list(self, purpose: Purpose, lim: &mut ReadLimiter) -> Result<Object<'a>, ErrorKind> {
        match self.found.word.list_element_size() {
            ElementSize::InlineComposite => self.enter_struct_list(purpose, lim),
            ElementSize::Pointer => self.enter_pointer_list(purpose, lim),
            ElementSize::Void => self.enter_void_list(purpose, lim),
            size => self.enter_primitive_list(purpose, size, lim),
        }
    }

    /// # Preconditions
    ///
    /// ```text
    /// requires of_void { IsVoidList self.found.word.0 }
    /// requires level { purpose ≡ Size → 0 < self.depth }
    /// ```
    // Enters a list of void; for the size, without a check of its place or a charge.
    #[inline(always)]
    fn enter_void_list(
        self,
        purpose: Purpose,
        lim: &mut ReadLimiter,
    ) -> Result<Object<'a>, ErrorKind> {
        let start = self.found.start;
        let size = ElementSize::Void;
        let count = self.found.word.list_element_count();
        match purpose {
            Purpose::Size => return Ok(Object::Flat { start, size, count }),
            Purpose::Value => {}
        }
        self.charge_claim(0, lim)?;
        self.source.charge(u64::from(count), lim)?;
        Ok(Object::Flat { start, size, count })
    }

    /// # Preconditions
    ///
    /// ```text
    /// requires is_list { kind self.found.word.0 ≡ 1 }
    /// requires is_size { size_number size ≡ element_size self.found.word.0 }
    /// requires of_bits { (0 < size_number size) × (size_number size ≤ 5) }
    /// ```
    // Enters a list of bits or of elements of bytes.
    #[inline(always)]
    fn enter_primitive_list(
        self,
        purpose: Purpose,
        size: ElementSize,
        lim: &mut ReadLimiter,
    ) -> Result<Object<'a>, ErrorKind> {
        let count = self.found.word.list_element_count();
        self.charge_claim(words_for_elements(size, count), lim)?;
        Ok(Object::Flat {
            start: self.found.start,
            size,
            count,
        })
    }

    /// # Preconditions
    ///
    /// ```text
    /// requires { (kind self.found.word.0 ≡ 1) × (element_size self.found.word.0 ≡ 6) }
    /// ```
    // Enters a list of pointers.
    #[inline(always)]
    fn enter_pointer_list(
        self,
        purpose: Purpose,
        lim: &mut ReadLimiter,
    ) -> Result<Object<'a>, ErrorKind> {
        let count = self.found.word.list_element_count();
        self.charge_claim(count, lim)?;
        Ok(Object::Pointers {
            start: self.found.start,
            count,
        })
    }

    /// # Preconditions
    ///
    /// ```text
    /// requires { IsStructList self.found.word.0 }
    /// ```
    // Enters a list of structs, whose first word is their tag.
    #[inline(always)]
    fn enter_struct_list(
        self,
        purpose: Purpose,
        lim: &mut ReadLimiter,
    ) -> Result<Object<'a>, ErrorKind> {
        let words = self.found.word.list_inline_composite_word_count();
        self.charge_claim(words + 1, lim)?;
        let tag = self.found.start.word();
        if tag.kind() != WirePointerKind::Struct {
            return Err(non_struct_tag_error(purpose));
        }
        let count = tag.inline_composite_list_element_count();
        let width = tag.struct_word_size();
        if u64::from(count) * u64::from(width) > u64::from(words) {
            return Err(ErrorKind::InlineCompositeListsElementsOverrunItsWordCount);
        }
        self.source.charge_elements(purpose, width, count, lim)?;
        Ok(Object::Structs {
            start: Place {
                at: self.found.start.at + 1,
                ..self.found.start
            },
            size: tag.struct_size(),
            count,
        })
    }
}

// The refusal of a list of structs without a tag.
#[inline]
fn non_struct_tag_error(purpose: Purpose) -> ErrorKind {
    match purpose {
        Purpose::Value => ErrorKind::InlineCompositeListsOfNonStructTypeAreNotSupported,
        Purpose::Size => ErrorKind::CantHandleNonStructInlineComposite,
    }
}
