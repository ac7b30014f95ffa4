//! Builders: pointers, structs and lists of a message being built. Each borrows the message
//! mutably.

mod content;
pub mod defaults;
mod finding;
pub(in crate::proved::capnp_builders) mod found;
pub(in crate::proved::capnp_builders) mod list_builder;
pub mod places;
mod primitive_element;
mod struct_builder;

use crate::proved::capnp_allocation::making;
use crate::proved::capnp_arena_traits::arena::{BuilderArena, ReaderArena, WordPlace};
use crate::proved::capnp_builders::{copy, fields};
use crate::proved::capnp_in_place::existing::ExistingBytes;
use crate::proved::capnp_in_place::{bytes, existing, initializing, lent};
use crate::proved::capnp_pointers::object::Place;
use crate::proved::capnp_pointers::source::Source;
use crate::proved::capnp_readers::readers::{
    ListPlace, ListReader, PointerReader, StructPlace, StructReader,
};
use crate::proved::capnp_words::error::ErrorKind;
use crate::proved::capnp_words::read_limiter::ReadLimiter;
use crate::proved::capnp_words::wire_pointer::{ElementSize, StructSize};
use crate::proved::capnp_words::words;
pub use list_builder::{element_place, ListBuilder};
pub use primitive_element::PrimitiveElement;
pub use struct_builder::StructBuilder;

// Elements that aren't structs have no sections.
pub(in crate::proved::capnp_builders) const NO_SECTIONS: StructSize = StructSize {
    data_words: 0,
    pointers: 0,
};

/// A pointer of a message being built.
pub struct PointerBuilder<'a, A> {
    /// The message.
    pub arena: &'a mut A,
    /// The segment of the pointer's word.
    pub segment: u32,
    /// The position of the pointer's word in the segment, in words. Calls require that this word is
    /// allocated, and it is allocated for each builder that a call returns.
    pub at: u32,
}

impl<'a, A: BuilderArena> PointerBuilder<'a, A> {
    /// Returns a builder of the root pointer of the message in `arena`: word 0 of segment 0.
    /// Precondition: that word is allocated.
    ///
    /// # Preconditions
    ///
    /// ```text
    /// requires { IsPlace (A.view arena.old).words 0 0 }
    /// ```
    #[inline]
    pub fn get_root(arena: &'a mut A) -> Self {
        PointerBuilder {
            arena,
            segment: 0,
            at: 0,
        }
    }

    /// Returns another builder of the same pointer. The new builder borrows `self`.
    #[inline]
    pub fn reborrow(&mut self) -> PointerBuilder<'_, A> {
        let segment = self.segment;
        let at = self.at;
        let arena = &mut *self.arena;
        PointerBuilder { arena, segment, at }
    }

    /// Whether the pointer is null. Precondition: the pointer's word is allocated.
    ///
    /// # Preconditions
    ///
    /// ```text
    /// requires { IsPlace (A.view self.now.arena.now).words self.now.segment self.now.at }
    /// ```
    #[inline]
    pub fn is_null(&self) -> bool {
        words::word_at(segment_bytes(&*self.arena, self.segment), self.at as usize) == 0
    }

    /// Returns a reader of the pointer. Reading charges nothing, and may enter `i32::MAX` levels of
    /// structs and lists.
    #[inline]
    pub fn as_reader(&self) -> PointerReader<'_, A> {
        reader_at(&*self.arena, self.segment, self.at)
    }

    /// Turns the builder into a reader of the pointer, for when building is over. Reading charges
    /// nothing, and may enter `i32::MAX` levels of structs and lists.
    #[inline]
    pub fn into_reader(self) -> PointerReader<'a, A> {
        let PointerBuilder { arena, segment, at } = self;
        reader_at(arena, segment, at)
    }

    /// Makes the pointer null, and zeroes what it held: its object, all objects below it, and their
    /// landing pads. These words stay allocated. Precondition: the pointer's word is allocated.
    ///
    /// # Preconditions
    ///
    /// ```text
    /// requires { IsThere (built A.view self.old) }
    /// ```
    #[inline]
    pub fn clear(&mut self) {
        making::clear(&mut *self.arena, self.segment, self.at);
    }

    /// Makes the pointer the capability with index `index` (encoding specification, "Capabilities
    /// (Interfaces)"). Precondition: the pointer's word is allocated.
    ///
    /// # Preconditions
    ///
    /// ```text
    /// requires { IsThere (built A.view self.old) }
    /// ```
    #[inline]
    pub fn set_capability(&mut self, index: u32) {
        initializing::set_capability(&mut *self.arena, self.segment, self.at, index);
    }

    /// Zeroes what the pointer held, makes the pointer lead to a new struct, all zero, and returns
    /// the struct's place. `into_struct` makes a builder from the place; `init_struct` does both
    /// steps. `self` can still be used after the call, and the contract states what the message is
    /// then, also after a refusal.
    ///
    /// Precondition: the pointer's word is allocated.
    ///
    /// Refusals, if no segment has room: `AllocationFailed` if memory runs out;
    /// `MessageTooLarge(usize::MAX)` if the message already has 4,294,967,295 segments. After a
    /// refusal the pointer is null.
    ///
    /// # Preconditions
    ///
    /// ```text
    /// requires { IsThere (built A.view self.old) }
    /// ```
    #[inline(always)]
    pub fn init_struct_place(&mut self, size: StructSize) -> Result<StructPlace, ErrorKind> {
        fields::new_struct(&mut *self.arena, self.segment, self.at, size)
    }

    /// Returns a builder of the struct at `place`, in the message of `self`. Precondition: `place`
    /// is aligned (see `StructPlace`).
    ///
    /// # Preconditions
    ///
    /// ```text
    /// requires { IsAligned place }
    /// ```
    #[inline]
    pub fn into_struct(self, place: StructPlace) -> StructBuilder<'a, A> {
        let PointerBuilder {
            arena,
            segment: _,
            at: _,
        } = self;
        StructBuilder { arena, place }
    }

    /// Zeroes what the pointer held, and makes the pointer lead to a new struct, all zero.
    /// Precondition: the pointer's word is allocated.
    ///
    /// Refusals, if no segment has room: `AllocationFailed` if memory runs out;
    /// `MessageTooLarge(usize::MAX)` if the message already has 4,294,967,295 segments. After a
    /// refusal the pointer is null; the contract of `init_struct_place` states what else holds.
    ///
    /// # Preconditions
    ///
    /// ```text
    /// requires { IsThere (built A.view self) }
    /// ```
    #[inline(always)]
    pub fn init_struct(mut self, size: StructSize) -> Result<StructBuilder<'a, A>, ErrorKind> {
        let place = self.init_struct_place(size)?;
        Ok(self.into_struct(place))
    }

    /// Zeroes what the pointer held, makes the pointer lead to a new list of `count` elements that
    /// aren't structs, all zero or null, and returns the list's place. Preconditions: the pointer's
    /// word is allocated; `size` isn't `InlineComposite`; `count` is below 2^29. `into_list` makes
    /// a builder from the place; `init_list` does both steps. The contract states what the message
    /// is afterwards, also after a refusal.
    ///
    /// Refusals, if no segment has room: `AllocationFailed` if memory runs out;
    /// `MessageTooLarge(n)` if n is above 536,870,911, where n is the number of the list's words,
    /// plus one for a landing pad; `MessageTooLarge(usize::MAX)` if the message already has
    /// 4,294,967,295 segments. After a refusal the pointer is null.
    ///
    /// # Preconditions
    ///
    /// ```text
    /// requires there { IsThere (built A.view self.old) }
    /// requires few { count < 2 ^ 29 }
    /// requires plain { size_number size ≤ 6 }
    /// ```
    #[inline(always)]
    pub fn init_list_place(
        &mut self,
        size: ElementSize,
        count: u32,
    ) -> Result<ListPlace, ErrorKind> {
        fields::new_list(&mut *self.arena, self.segment, self.at, size, count)
    }

    /// Returns a builder of the list at `place`, in the message of `self`.
    #[inline]
    pub fn into_list(self, place: ListPlace) -> ListBuilder<'a, A> {
        let PointerBuilder {
            arena,
            segment: _,
            at: _,
        } = self;
        ListBuilder { arena, place }
    }

    /// Zeroes what the pointer held, and makes the pointer lead to a new list of `count` elements
    /// that aren't structs, all zero or null. Preconditions: the pointer's word is allocated;
    /// `size` isn't `InlineComposite`; `count` is below 2^29.
    ///
    /// Refusals, if no segment has room: `AllocationFailed` if memory runs out;
    /// `MessageTooLarge(n)` if n is above 536,870,911, where n is the number of the list's words,
    /// plus one for a landing pad; `MessageTooLarge(usize::MAX)` if the message already has
    /// 4,294,967,295 segments. After a refusal the pointer is null; the contract of
    /// `init_list_place` states what else holds.
    ///
    /// # Preconditions
    ///
    /// ```text
    /// requires there { IsThere (built A.view self) }
    /// requires few { count < 2 ^ 29 }
    /// requires plain { size_number size ≤ 6 }
    /// ```
    #[inline(always)]
    pub fn init_list(
        mut self,
        size: ElementSize,
        count: u32,
    ) -> Result<ListBuilder<'a, A>, ErrorKind> {
        let place = self.init_list_place(size, count)?;
        Ok(self.into_list(place))
    }

    /// Zeroes what the pointer held, makes the pointer lead to a new list of `count` structs, all
    /// zero, and returns the list's place. Preconditions: the pointer's word is allocated; `count`
    /// is below 2^30; `count` structs of `size` have fewer than 2^29 words. `into_list` makes a
    /// builder from the place; `init_struct_list` does both steps. The contract states what the
    /// message is afterwards, also after a refusal.
    ///
    /// Refusals, if no segment has room: `AllocationFailed` if memory runs out;
    /// `MessageTooLarge(n)` if n is above 536,870,911, where n is the number of the structs' words,
    /// plus two for the tag and a landing pad; `MessageTooLarge(usize::MAX)` if the message already
    /// has 4,294,967,295 segments. After a refusal the pointer is null.
    ///
    /// # Preconditions
    ///
    /// ```text
    /// requires there { IsThere (built A.view self.old) }
    /// requires few { count < 2 ^ 30 }
    /// requires words { count * (size.data_words + size.pointers) < 2 ^ 29 }
    /// ```
    #[inline]
    pub fn init_struct_list_place(
        &mut self,
        count: u32,
        size: StructSize,
    ) -> Result<ListPlace, ErrorKind> {
        fields::new_struct_list(&mut *self.arena, self.segment, self.at, count, size)
    }

    /// Zeroes what the pointer held, and makes the pointer lead to a new list of `count` structs,
    /// all zero. Preconditions: the pointer's word is allocated; `count` is below 2^30; `count`
    /// structs of `size` have fewer than 2^29 words.
    ///
    /// Refusals, if no segment has room: `AllocationFailed` if memory runs out;
    /// `MessageTooLarge(n)` if n is above 536,870,911, where n is the number of the structs' words,
    /// plus two for the tag and a landing pad; `MessageTooLarge(usize::MAX)` if the message already
    /// has 4,294,967,295 segments. After a refusal the pointer is null; the contract of
    /// `init_struct_list_place` states what else holds.
    ///
    /// # Preconditions
    ///
    /// ```text
    /// requires there { IsThere (built A.view self) }
    /// requires few { count < 2 ^ 30 }
    /// requires words { count * (size.data_words + size.pointers) < 2 ^ 29 }
    /// ```
    #[inline]
    pub fn init_struct_list(
        mut self,
        count: u32,
        size: StructSize,
    ) -> Result<ListBuilder<'a, A>, ErrorKind> {
        let place = self.init_struct_list_place(count, size)?;
        Ok(self.into_list(place))
    }

    /// Lends the bytes of the message that `bytes` names, for writing in place. Preconditions:
    /// segment `bytes.segment` exists; the words that hold `bytes` are allocated. No other bytes
    /// change.
    ///
    /// # Preconditions
    ///
    /// ```text
    /// requires there { bytes.segment < length (A.view self.old.arena.now).words }
    /// requires inside { AreInside (A.view self.old.arena.now).words bytes }
    /// ```
    #[inline]
    pub fn bytes_mut(&mut self, bytes: ExistingBytes) -> &mut [u8] {
        let arena = &mut *self.arena;
        lent::bytes_mut(arena, bytes)
    }

    /// Zeroes what the pointer held, makes the pointer lead to new data of `size` bytes, all zero,
    /// and lends these bytes for writing in place ("Lists"). Preconditions: the pointer's word is
    /// allocated; `size` is below 2^29.
    ///
    /// Refusals, if no segment has room: `AllocationFailed` if memory runs out;
    /// `MessageTooLarge(usize::MAX)` if the message already has 4,294,967,295 segments. After a
    /// refusal the pointer is null. `init_list_place` followed by `bytes_mut` does the same. The
    /// contracts of these two calls also state what the message is once the bytes are written.
    ///
    /// # Preconditions
    ///
    /// ```text
    /// requires there { IsThere (built A.view self) }
    /// requires few { size < 2 ^ 29 }
    /// ```
    #[inline]
    pub fn init_data(self, size: u32) -> Result<&'a mut [u8], ErrorKind> {
        let PointerBuilder { arena, segment, at } = self;
        lent::init_data(arena, segment, at, size)
    }

    /// Zeroes what the pointer held, makes the pointer lead to a new text of `size` bytes, all
    /// zero, and lends these bytes, but not the zero byte after them, for writing in place
    /// ("Lists"). Preconditions: the pointer's word is allocated; `size` is below 2^29 - 1.
    ///
    /// Refusals, if no segment has room: `AllocationFailed` if memory runs out;
    /// `MessageTooLarge(usize::MAX)` if the message already has 4,294,967,295 segments. After a
    /// refusal the pointer is null. `init_list_place` followed by `bytes_mut` does the same. The
    /// contracts of these two calls also state what the message is once the bytes are written.
    ///
    /// # Preconditions
    ///
    /// ```text
    /// requires there { IsThere (built A.view self) }
    /// requires few { size + 1 < 2 ^ 29 }
    /// ```
    #[inline]
    pub fn init_text(self, size: u32) -> Result<&'a mut [u8], ErrorKind> {
        let PointerBuilder { arena, segment, at } = self;
        lent::init_text(arena, segment, at, size)
    }

    /// Zeroes what the pointer held, and makes the pointer lead to new data: a copy of `bytes`
    /// ("Lists"). Preconditions: the pointer's word is allocated; `bytes` has fewer than 2^29
    /// bytes.
    ///
    /// Refusals, if no segment has room: `AllocationFailed` if memory runs out;
    /// `MessageTooLarge(usize::MAX)` if the message already has 4,294,967,295 segments. After a
    /// refusal the pointer is null.
    ///
    /// # Preconditions
    ///
    /// ```text
    /// requires there { IsThere (built A.view self.old) }
    /// requires few { length bytes.now < 2 ^ 29 }
    /// ```
    #[inline(always)]
    pub fn set_data(&mut self, bytes: &[u8]) -> Result<(), ErrorKind> {
        bytes::set_data(&mut *self.arena, self.segment, self.at, bytes)
    }

    /// Zeroes what the pointer held, and makes the pointer lead to a new text: a copy of `bytes`,
    /// followed by a zero byte ("Lists"). Preconditions: the pointer's word is allocated; `bytes`
    /// has fewer than 2^29 - 1 bytes.
    ///
    /// Refusals, if no segment has room: `AllocationFailed` if memory runs out;
    /// `MessageTooLarge(usize::MAX)` if the message already has 4,294,967,295 segments. After a
    /// refusal the pointer is null.
    ///
    /// # Preconditions
    ///
    /// ```text
    /// requires there { IsThere (built A.view self.old) }
    /// requires few { length bytes.now + 1 < 2 ^ 29 }
    /// ```
    #[inline(always)]
    pub fn set_text(&mut self, bytes: &[u8]) -> Result<(), ErrorKind> {
        bytes::set_text(&mut *self.arena, self.segment, self.at, bytes)
    }

    /// Returns the index in the capability pointer ("Capabilities (Interfaces)"). Doesn't follow
    /// far pointers. Precondition: the pointer's word is allocated.
    ///
    /// Refusals: `MessageContainsNullCapabilityPointer` if the pointer is null;
    /// `MessageContainsNonCapabilityPointerWhereCapabilityPointerWasExpected` if it is neither null
    /// nor a capability pointer; a far pointer is refused like this, too.
    ///
    /// # Preconditions
    ///
    /// ```text
    /// requires { IsThere (built A.view self.now) }
    /// ```
    #[inline]
    pub fn get_capability(&self) -> Result<u32, ErrorKind> {
        existing::get_capability(&*self.arena, self.segment, self.at)
    }

    /// Copies the value of `from` to this pointer, in canonical form if `canonicalize`, otherwise
    /// plain ("Canonicalization"). Charges `lim` what reading the whole value costs. Precondition:
    /// the pointer's word is allocated.
    ///
    /// First zeroes what the pointer held; those words stay allocated. If the copy fits the
    /// pointer's segment, or the message has one segment afterwards, the copy's words follow the
    /// old words of the pointer's segment, in the canonical order of objects. Otherwise the copy is
    /// in as many segments as it needs. A plain copy has all words of the sections and elements; a
    /// canonical copy has only those that canonical form keeps.
    ///
    /// Refusals: the first refusal of reading the value of `from`;
    /// `CannotCreateACanonicalMessageWithACapability` if `canonicalize` and the value has a
    /// capability. If the copy doesn't fit the pointer's segment, and no other segment has room for
    /// one of its objects: `AllocationFailed` if memory runs out; `MessageTooLarge(n)` if n is
    /// above 536,870,911, where n is the number of that object's words, plus one for a landing pad;
    /// `MessageTooLarge(usize::MAX)` if the message already has 4,294,967,295 segments.
    ///
    /// After a refusal the pointer is null, the words that were allocated are zero and stay
    /// allocated, and what was charged stays charged.
    ///
    /// Allocates at most as many words as reading the value costs, plus one landing pad for each
    /// object that has no room in its pointer's segment. If the copy is refused, only the cost of
    /// reading up to the refused object counts here.
    ///
    /// # Preconditions
    ///
    /// ```text
    /// requires place { IsThere (built A.view self.old) }
    /// ```
    #[inline]
    pub fn copy_from<B: ReaderArena>(
        &mut self,
        from: PointerReader<'_, B>,
        lim: &mut ReadLimiter,
        canonicalize: bool,
    ) -> Result<(), ErrorKind> {
        let to = WordPlace {
            segment: self.segment,
            at: self.at,
        };
        let value = from.pointer();
        if self.is_null() {
            return copy::copy_value(&mut *self.arena, to, value, lim, canonicalize);
        }
        making::clear(&mut *self.arena, to.segment, to.at);
        copy::copy_value(&mut *self.arena, to, value, lim, canonicalize)
    }

    /// Copies the struct `value` to this pointer, in canonical form if `canonicalize`, otherwise
    /// plain ("Structs", "Canonicalization"). Pads the struct's data section with zeros to whole
    /// words. Charges `lim` what reading the values of the struct's pointers costs, and nothing for
    /// the struct's own words. These values are read under the nesting limit of `value`.
    ///
    /// Precondition: the pointer's word is allocated.
    ///
    /// First zeroes what the pointer held. If the copy fits the pointer's segment, or the message
    /// has one segment afterwards, the copy's words follow the old words of the pointer's segment,
    /// in the canonical order of objects.
    ///
    /// Refusals: the first refusal of reading the values of the struct's pointers;
    /// `CannotCreateACanonicalMessageWithACapability` if `canonicalize` and the value has a
    /// capability. If the copy doesn't fit the pointer's segment, and no other segment has room for
    /// one of its objects: `AllocationFailed` if memory runs out; `MessageTooLarge(n)` if n is
    /// above 536,870,911, where n is the number of that object's words, plus one for a landing pad;
    /// `MessageTooLarge(usize::MAX)` if the message already has 4,294,967,295 segments. Also
    /// `MessageTooLarge(n)` if n data words have to be copied, and n is above 65535; then nothing
    /// is charged.
    ///
    /// After a refusal the pointer is null, the words that were allocated are zero and stay
    /// allocated, and what was charged stays charged.
    ///
    /// # Preconditions
    ///
    /// ```text
    /// requires place { IsThere (built A.view self.old) }
    /// ```
    #[inline]
    pub fn set_struct<B: ReaderArena>(
        &mut self,
        value: &StructReader<'_, B>,
        lim: &mut ReadLimiter,
        canonicalize: bool,
    ) -> Result<(), ErrorKind> {
        let to = WordPlace {
            segment: self.segment,
            at: self.at,
        };
        making::clear(&mut *self.arena, to.segment, to.at);
        copy::copy_struct_value(&mut *self.arena, to, *value, lim, canonicalize)
    }

    /// Copies the list `value` to this pointer, in canonical form if `canonicalize`, otherwise
    /// plain ("Lists", "Canonicalization"). In both forms, the bits after the last number of a list
    /// of numbers are zero, up to the end of its word. Charges `lim` what reading the values of the
    /// list's pointers costs, and nothing for the list's own words or its number of elements. These
    /// values are read under the nesting limit of `value`.
    ///
    /// Precondition: the pointer's word is allocated.
    ///
    /// First zeroes what the pointer held. If the copy fits the pointer's segment, or the message
    /// has one segment afterwards, the copy's words follow the old words of the pointer's segment,
    /// in the canonical order of objects.
    ///
    /// Refusals: the first refusal of reading the values of the list's pointers;
    /// `CannotCreateACanonicalMessageWithACapability` if `canonicalize` and the value has a
    /// capability. If the copy doesn't fit the pointer's segment, and no other segment has room for
    /// one of its objects: `AllocationFailed` if memory runs out; `MessageTooLarge(n)` if n is
    /// above 536,870,911, where n is the number of that object's words, plus one for a landing pad;
    /// `MessageTooLarge(usize::MAX)` if the message already has 4,294,967,295 segments. Also
    /// `MessageTooLarge(usize::MAX)` if `value` has more elements or words than a list pointer can
    /// state; a list that was read from a message never has.
    ///
    /// After a refusal the pointer is null, the words that were allocated are zero and stay
    /// allocated, and what was charged stays charged.
    ///
    /// # Preconditions
    ///
    /// ```text
    /// requires place { IsThere (built A.view self.old) }
    /// ```
    #[inline]
    pub fn set_list<B: ReaderArena>(
        &mut self,
        value: &ListReader<'_, B>,
        lim: &mut ReadLimiter,
        canonicalize: bool,
    ) -> Result<(), ErrorKind> {
        let to = WordPlace {
            segment: self.segment,
            at: self.at,
        };
        making::clear(&mut *self.arena, to.segment, to.at);
        copy::copy_list(&mut *self.arena, to, *value, lim, canonicalize)
    }
}

/// Returns the bytes of segment `id`; no bytes if there is no such segment.
#[inline]
fn segment_bytes<A: ReaderArena>(arena: &A, id: u32) -> &[u8] {
    match arena.get_segment(id) {
        Ok(bytes) => bytes,
        Err(_) => &[],
    }
}

/// Returns a reader of the pointer at word `at` of segment `segment`.
#[inline]
fn reader_at<A: ReaderArena>(arena: &A, segment: u32, at: u32) -> PointerReader<'_, A> {
    PointerReader {
        source: Source::Arena(arena),
        place: Place {
            segment: u64::from(segment),
            bytes: segment_bytes(arena, segment),
            at,
        },
        nesting_limit: i32::MAX,
    }
}
