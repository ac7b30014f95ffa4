//! Lists of a message being built (encoding specification, "Lists").

use crate::proved::capnp_arena_traits::arena::BuilderArena;
use crate::proved::capnp_builders::builders::{PointerBuilder, StructBuilder};
use crate::proved::capnp_in_place::numbers;
use crate::proved::capnp_readers::readers::{ListPlace, ListReader, StructPlace};
use crate::proved::capnp_words::primitive::Primitive;
use crate::proved::capnp_words::wire_pointer::{
    data_bits_per_element, pointers_per_element, ElementSize,
};

/// A list of a message being built.
pub struct ListBuilder<'a, A> {
    /// Where the list is. Calls require that its elements are inside the message.
    pub place: ListPlace,
    /// The message.
    pub arena: &'a mut A,
}

/// Returns the place of element `index` of `list` as a struct: a struct has its own sections, a
/// pointer becomes a struct's only pointer, and a number a struct's data section. Preconditions:
/// the elements aren't bits; `index` is below the number of elements; `list.byte` is a multiple of
/// 8; the segment has fewer than 2^29 words up to the end of the elements.
///
/// # Preconditions
///
/// ```text
/// requires range { index < list.count }
/// requires whole { size_number list.size ≢ 1 }
/// requires inside { list.byte / 8 + elements_words list.size list.count
///     (list.struct_size.data_words + list.struct_size.pointers) < 2 ^ 29 }
/// requires aligned { list.byte % 8 ≡ 0 }
/// ```
pub fn element_place(list: ListPlace, index: u32) -> StructPlace {
    let start = (list.byte / 8) as u32;
    match list.size {
        ElementSize::InlineComposite => {
            let first = start + index * list.struct_size.total();
            StructPlace {
                segment: list.segment,
                byte: 8 * u64::from(first),
                bits: 64 * u32::from(list.struct_size.data_words),
                pointers_at: first + u32::from(list.struct_size.data_words),
                pointers: list.struct_size.pointers,
            }
        }
        ElementSize::Pointer => StructPlace {
            segment: list.segment,
            byte: 8 * u64::from(start + index),
            bits: 0,
            pointers_at: start + index,
            pointers: 1,
        },
        size => {
            let bits = data_bits_per_element(size);
            StructPlace {
                segment: list.segment,
                byte: list.byte + u64::from(index) * u64::from(bits / 8),
                bits,
                pointers_at: start,
                pointers: 0,
            }
        }
    }
}

/// Returns the position, in words, of element `index` of `list` if it is a pointer, or of its first
/// pointer if it is a struct.
///
/// # Preconditions
///
/// ```text
/// requires range { index < list.count }
/// requires pointers { HoldsPointer list.size list.struct_size }
/// requires inside { list.byte / 8 + elements_words list.size list.count
///     (list.struct_size.data_words + list.struct_size.pointers) < 2 ^ 29 }
/// ```
#[inline]
fn element_pointer_position(list: ListPlace, index: u32) -> u32 {
    let start = (list.byte / 8) as u32;
    match list.size {
        ElementSize::InlineComposite => {
            start + index * list.struct_size.total() + u32::from(list.struct_size.data_words)
        }
        _ => start + index,
    }
}

/// The number of bits from one element of `list` to the next.
#[inline]
fn step_bits(list: ListPlace) -> u32 {
    // A sum without a branch: a loop over the elements computes it once.
    let is_struct = u32::from(list.size == ElementSize::InlineComposite);
    let words = pointers_per_element(list.size) + is_struct * list.struct_size.total();
    data_bits_per_element(list.size) + 64 * words
}

/// # Preconditions
///
/// ```text
/// requires inside { IsListPlace (A.view arena.old).words list }
/// requires range { index < list.count }
/// requires wide { 8 * T.BYTES ≤ data_bits list.size list.struct_size }
/// ```
// Writes a number over the lowest bytes of an element's data.
#[inline]
pub(in crate::proved::capnp_builders) fn write_number<A: BuilderArena, T: Primitive>(
    arena: &mut A,
    list: ListPlace,
    index: u32,
    value: T,
) {
    let step = u64::from(step_bits(list) / 8);
    let byte = list.byte + u64::from(index) * step;
    numbers::set_number(arena, list.segment, byte, value);
}

/// # Preconditions
///
/// ```text
/// requires inside { IsListPlace (A.view arena.old).words list }
/// requires range { index < list.count }
/// requires wide { 1 ≤ data_bits list.size list.struct_size }
/// ```
// Writes the lowest bit of an element's data.
#[inline]
pub(in crate::proved::capnp_builders) fn write_bit<A: BuilderArena>(
    arena: &mut A,
    list: ListPlace,
    index: u32,
    value: bool,
) {
    let step = u64::from(step_bits(list));
    let bit = 8 * list.byte + u64::from(index) * step;
    numbers::set_bit(arena, list.segment, bit, value);
}

impl<'a, A: BuilderArena> ListBuilder<'a, A> {
    /// Returns another builder of the same list. The new builder borrows `self`.
    #[inline]
    pub fn reborrow(&mut self) -> ListBuilder<'_, A> {
        let place = self.place;
        let arena = &mut *self.arena;
        ListBuilder { arena, place }
    }

    /// The number of elements.
    #[inline]
    pub fn len(&self) -> u32 {
        self.place.count
    }

    /// Whether there are no elements.
    #[inline]
    pub fn is_empty(&self) -> bool {
        self.place.count == 0
    }

    /// The element size.
    #[inline]
    pub fn get_element_size(&self) -> ElementSize {
        self.place.size
    }

    /// Returns a reader of the list. Reading charges nothing, and may enter `i32::MAX` levels of
    /// structs and lists. Precondition: the list is inside the message.
    ///
    /// # Preconditions
    ///
    /// ```text
    /// requires { IsListPlace (A.view self.now.arena.now).words self.now.place }
    /// ```
    #[inline]
    pub fn as_reader(&self) -> ListReader<'_, A> {
        ListReader::at(&*self.arena, self.place, i32::MAX)
    }

    /// Turns the builder into a reader of the list, for when building is over. Reading charges
    /// nothing, and may enter `i32::MAX` levels of structs and lists. Precondition: the list is
    /// inside the message.
    ///
    /// # Preconditions
    ///
    /// ```text
    /// requires { IsListPlace (A.view self.arena.now).words self.place }
    /// ```
    #[inline]
    pub fn into_reader(self) -> ListReader<'a, A> {
        let ListBuilder { arena, place } = self;
        ListReader::at(arena, place, i32::MAX)
    }

    /// Returns a builder of element `index` as a struct: a number becomes a struct whose data
    /// section is that number, a pointer a struct with one pointer. Preconditions: the list is
    /// inside the message; the elements aren't bits; `index` is below the number of elements.
    ///
    /// # Preconditions
    ///
    /// ```text
    /// requires inside { IsListPlace (A.view self.arena.now).words self.place }
    /// requires range { index < self.place.count }
    /// requires whole { size_number self.place.size ≢ 1 }
    /// ```
    #[inline]
    pub fn get_struct_element(self, index: u32) -> StructBuilder<'a, A> {
        let ListBuilder { arena, place } = self;
        StructBuilder {
            arena,
            place: element_place(place, index),
        }
    }

    /// Returns a builder of the pointer in element `index`: the element itself, or a struct
    /// element's first pointer. Preconditions: the list is inside the message; the elements are
    /// pointers, or structs with pointers; `index` is below the number of elements.
    ///
    /// # Preconditions
    ///
    /// ```text
    /// requires inside { IsListPlace (A.view self.arena.now).words self.place }
    /// requires range { index < self.place.count }
    /// requires pointers { HoldsPointer self.place.size self.place.struct_size }
    /// ```
    #[inline]
    pub fn get_pointer_element(self, index: u32) -> PointerBuilder<'a, A> {
        let ListBuilder { arena, place } = self;
        PointerBuilder {
            arena,
            segment: place.segment,
            at: element_pointer_position(place, index),
        }
    }

    /// # Preconditions
    ///
    /// ```text
    /// requires { HoldsElement A.view self.now index (8 * T.BYTES) }
    /// ```
    // The number in the lowest bytes of an element's data.
    #[inline]
    pub(in crate::proved::capnp_builders) fn get_number_at<T: Primitive>(&self, index: u32) -> T {
        let step = u64::from(step_bits(self.place) / 8);
        let byte = self.place.byte + u64::from(index) * step;
        numbers::get_number(&*self.arena, self.place.segment, byte)
    }

    /// # Preconditions
    ///
    /// ```text
    /// requires { HoldsElement A.view self.now index 1 }
    /// ```
    // The lowest bit of an element's data.
    #[inline]
    pub(in crate::proved::capnp_builders) fn get_bit_at(&self, index: u32) -> bool {
        let step = u64::from(step_bits(self.place));
        let bit = 8 * self.place.byte + u64::from(index) * step;
        numbers::get_bit(&*self.arena, self.place.segment, bit)
    }

    /// # Preconditions
    ///
    /// ```text
    /// requires { HoldsElement A.view self.old index (8 * T.BYTES) }
    /// ```
    // Writes a number over the lowest bytes of an element's data.
    #[inline]
    pub(in crate::proved::capnp_builders) fn set_number_at<T: Primitive>(
        &mut self,
        index: u32,
        value: T,
    ) {
        write_number(&mut *self.arena, self.place, index, value);
    }

    /// # Preconditions
    ///
    /// ```text
    /// requires { HoldsElement A.view self.old index 1 }
    /// ```
    // Writes the lowest bit of an element's data.
    #[inline]
    pub(in crate::proved::capnp_builders) fn set_bit_at(&mut self, index: u32, value: bool) {
        write_bit(&mut *self.arena, self.place, index, value);
    }
}
