//! Structs of a message being built (encoding specification, "Structs").

use super::content::{clear_pointers, write_content};
use crate::proved::capnp_arena_traits::arena::{BuilderArena, ReaderArena, WordPlace};
use crate::proved::capnp_builders::builders::PointerBuilder;
use crate::proved::capnp_builders::{copy, fields};
use crate::proved::capnp_in_place::numbers;
use crate::proved::capnp_pointers::pointers::Pointer;
use crate::proved::capnp_readers::readers::{StructPlace, StructReader};
use crate::proved::capnp_words::error::ErrorKind;
use crate::proved::capnp_words::mask::Mask;
use crate::proved::capnp_words::primitive::Primitive;
use crate::proved::capnp_words::read_limiter::ReadLimiter;
use crate::proved::capnp_words::zero::Zero;

/// A struct of a message being built.
pub struct StructBuilder<'a, A> {
    /// Where the struct is. Required: the place is aligned. Calls also require that it is inside the
    /// message.
    pub place: StructPlace,
    /// The message.
    pub arena: &'a mut A,
}

impl<'a, A: BuilderArena> StructBuilder<'a, A> {
    /// Returns another builder of the same struct. The new builder borrows `self`.
    #[inline]
    pub fn reborrow(&mut self) -> StructBuilder<'_, A> {
        let place = self.place;
        let arena = &mut *self.arena;
        StructBuilder { arena, place }
    }

    /// Returns a reader of the struct. Reading charges nothing, and may enter `i32::MAX` levels of
    /// structs and lists. Precondition: the struct is inside the message.
    ///
    /// # Preconditions
    ///
    /// ```text
    /// requires { IsStructPlace (A.view self.now.arena.now).words self.now.place }
    /// ```
    #[inline]
    pub fn as_reader(&self) -> StructReader<'_, A> {
        StructReader::at(&*self.arena, self.place, i32::MAX)
    }

    /// Turns the builder into a reader of the struct, for when building is over. Reading charges
    /// nothing, and may enter `i32::MAX` levels of structs and lists. Precondition: the struct is
    /// inside the message.
    ///
    /// # Preconditions
    ///
    /// ```text
    /// requires { IsStructPlace (A.view self.arena.now).words self.place }
    /// ```
    #[inline]
    pub fn into_reader(self) -> StructReader<'a, A> {
        let StructBuilder { arena, place } = self;
        StructReader::at(arena, place, i32::MAX)
    }

    /// Returns a builder of pointer `index` of the pointer section. Preconditions: the struct is
    /// inside the message; `index` is below the struct's number of pointers.
    ///
    /// # Preconditions
    ///
    /// ```text
    /// requires inside { IsStructPlace (A.view self.arena.now).words self.place }
    /// requires field { index < self.place.pointers }
    /// ```
    #[inline]
    pub fn get_pointer_field(self, index: usize) -> PointerBuilder<'a, A> {
        let StructBuilder { arena, place } = self;
        PointerBuilder {
            arena,
            segment: place.segment,
            at: place.pointers_at + index as u32,
        }
    }

    /// Replaces the struct's content by a plain copy of the content of `value`. Copies the data
    /// that fits both data sections, and zeroes the rest of the data section of `self`. Then makes
    /// all pointers of `self` null, zeroes what they held, and copies, in order, the pointers that
    /// both structs have. Charges `lim` what reading the values of the copied pointers costs, and
    /// nothing else. These values are read under the nesting limit of `value`.
    ///
    /// Precondition: the struct is inside the message.
    ///
    /// Refusals: the first refusal of reading the values of the copied pointers. If the copies
    /// don't fit after the words of the struct's segment, and no other segment has room for one of
    /// their objects: `AllocationFailed` if memory runs out; `MessageTooLarge(n)` if n is above
    /// 536,870,911, where n is the number of that object's words, plus one for a landing pad;
    /// `MessageTooLarge(usize::MAX)` if the message already has 4,294,967,295 segments. After a
    /// refusal, the data and the pointers before the refused pointer are copied; the refused
    /// pointer and those after it are null. The words that were allocated for the refused pointer
    /// are zero and stay allocated, and what was charged stays charged.
    ///
    /// # Preconditions
    ///
    /// ```text
    /// requires inside { IsStructPlace (A.view self.old.arena.now).words self.old.place }
    /// ```
    #[inline]
    pub fn copy_content_from<B: ReaderArena>(
        &mut self,
        value: &StructReader<'_, B>,
        lim: &mut ReadLimiter,
    ) -> Result<(), ErrorKind> {
        let place = self.place;
        let to = WordPlace {
            segment: place.segment,
            at: place.pointers_at,
        };
        write_content(&mut *self.arena, place, value.content, value.bits);
        clear_pointers(&mut *self.arena, to.segment, to.at, place.pointers);
        let from = Pointer {
            source: value.source,
            place: value.pointers,
            nesting_limit: value.nesting_limit,
        };
        let count = u32::from(place.pointers.min(value.pointer_count));
        copy::copy_each(&mut *self.arena, to, from, count, lim)
    }

    /// Whether pointer `index` of the pointer section is null. Preconditions: the struct is inside
    /// the message; `index` is below the struct's number of pointers.
    ///
    /// # Preconditions
    ///
    /// ```text
    /// requires inside { IsStructPlace (A.view self.now.arena.now).words self.now.place }
    /// requires field { index < self.now.place.pointers }
    /// ```
    #[inline]
    pub fn is_pointer_field_null(&self, index: usize) -> bool {
        self.as_reader().is_pointer_field_null(index)
    }

    /// Writes the field of the data section at `offset`, counted in values of `T`. Preconditions:
    /// the struct is inside the message; the field at `offset` is inside the data section.
    ///
    /// # Preconditions
    ///
    /// ```text
    /// requires { HoldsField A.view self.old (8 * T.BYTES) offset }
    /// ```
    #[inline]
    pub fn set_data_field<T: Primitive + Zero>(&mut self, offset: usize, value: T) {
        fields::write_number(&mut *self.arena, self.place, offset, value);
    }

    /// Like `set_data_field`, for a field with the default `mask`: `get_data_field_mask` with the
    /// same mask then returns `value`. Preconditions: the struct is inside the message; the field
    /// at `offset` is inside the data section.
    ///
    /// # Preconditions
    ///
    /// ```text
    /// requires { HoldsField A.view self.old (8 * T.BYTES) offset }
    /// ```
    #[inline]
    pub fn set_data_field_mask<T: Primitive + Zero + Mask>(
        &mut self,
        offset: usize,
        value: T,
        mask: <T as Mask>::T,
    ) {
        self.set_data_field(offset, T::mask(value, mask));
    }

    /// Writes bit `offset` of the data section. Preconditions: the struct is inside the message;
    /// bit `offset` is inside the data section.
    ///
    /// # Preconditions
    ///
    /// ```text
    /// requires { HoldsBit A.view self.old offset }
    /// ```
    #[inline]
    pub fn set_bool_field(&mut self, offset: usize, value: bool) {
        fields::write_bit(&mut *self.arena, self.place, offset, value);
    }

    /// Like `set_bool_field`, for a bit with the default `mask`: `get_bool_field_mask` with the
    /// same mask then returns `value`. Preconditions: the struct is inside the message; bit
    /// `offset` is inside the data section.
    ///
    /// # Preconditions
    ///
    /// ```text
    /// requires { HoldsBit A.view self.old offset }
    /// ```
    #[inline]
    pub fn set_bool_field_mask(&mut self, offset: usize, value: bool, mask: bool) {
        self.set_bool_field(offset, value != mask);
    }

    /// Returns the field of the data section at `offset`, counted in values of `T`. Preconditions:
    /// the struct is inside the message; the field at `offset` is inside the data section.
    ///
    /// # Preconditions
    ///
    /// ```text
    /// requires { HoldsField A.view self.now (8 * T.BYTES) offset }
    /// ```
    #[inline]
    pub fn get_data_field<T: Primitive + Zero>(&self, offset: usize) -> T {
        let byte = self.place.byte + (offset * T::BYTES) as u64;
        numbers::get_number(&*self.arena, self.place.segment, byte)
    }

    /// Returns what `get_data_field` returns, with the field's default `mask` applied.
    /// Preconditions: the struct is inside the message; the field at `offset` is inside the data
    /// section.
    ///
    /// # Preconditions
    ///
    /// ```text
    /// requires { HoldsField A.view self.now (8 * T.BYTES) offset }
    /// ```
    #[inline]
    pub fn get_data_field_mask<T: Primitive + Zero + Mask>(
        &self,
        offset: usize,
        mask: <T as Mask>::T,
    ) -> T {
        T::mask(self.get_data_field(offset), mask)
    }

    /// Returns bit `offset` of the data section. Preconditions: the struct is inside the message;
    /// bit `offset` is inside the data section.
    ///
    /// # Preconditions
    ///
    /// ```text
    /// requires { HoldsBit A.view self.now offset }
    /// ```
    #[inline]
    pub fn get_bool_field(&self, offset: usize) -> bool {
        let bit = 8 * self.place.byte + offset as u64;
        numbers::get_bit(&*self.arena, self.place.segment, bit)
    }

    /// Returns what `get_bool_field` returns, with the bit's default `mask` applied. Preconditions:
    /// the struct is inside the message; bit `offset` is inside the data section.
    ///
    /// # Preconditions
    ///
    /// ```text
    /// requires { HoldsBit A.view self.now offset }
    /// ```
    #[inline]
    pub fn get_bool_field_mask(&self, offset: usize, mask: bool) -> bool {
        self.get_bool_field(offset) != mask
    }
}
