//! Structs of messages that are being built.

use crate::builder::{Builder, BuiltArena};
use crate::element::{Element, Number, Structs};
use crate::list::List;
use crate::list_building::{check_element, ListBuilder};
use crate::meter::Meter;
use crate::proved::capnp_readers::readers::{ListPlace, StructPlace};
use crate::proved::capnp_words::primitive::Primitive;
use crate::proved::capnp_words::wire_pointer::{ElementSize, StructSize};
use crate::proved::typed_building::{copying, opening, reading, value};
use crate::reading::{Pointer, Struct};

/// The place of a struct that was refused.
const NOWHERE: StructPlace = StructPlace {
    segment: 0,
    bits: 0,
    byte: 0,
    pointers_at: 0,
    pointers: 0,
};

/// A struct of a message that is being built. Fields are named as by [`Struct`].
///
/// It borrows the message mutably, so nothing else changes the message while it is there. Calls
/// that write a field return `self`, to be chained. A field that the struct doesn't have is a
/// mistake of the program, and panics.
pub struct StructBuilder<'b> {
    pub(crate) message: &'b mut Builder,
    place: StructPlace,
}

/// Says which number a struct doesn't have.
#[cold]
#[inline(never)]
#[track_caller]
fn no_number(offset: usize, numbers: usize, size: usize) -> ! {
    panic!("number {offset} of a struct that has room for {numbers} of {size} bytes")
}

/// Says which bit a struct doesn't have.
#[cold]
#[inline(never)]
#[track_caller]
fn no_bit(offset: usize, bits: u32) -> ! {
    panic!("bit {offset} of a struct that has room for {bits}")
}

/// Says which pointer a struct doesn't have.
#[cold]
#[inline(never)]
#[track_caller]
fn no_pointer(index: usize, pointers: u16) -> ! {
    panic!("pointer {index} of a struct that has {pointers}")
}

/// Panics if the struct has no pointer `index`.
#[inline(always)]
#[track_caller]
fn check_pointer(place: StructPlace, index: usize) {
    if index >= usize::from(place.pointers) {
        no_pointer(index, place.pointers);
    }
}

macro_rules! set_numbers {
    ($($name:ident: $t:ty),*) => {
        $(
            #[doc = concat!("Writes the `", stringify!($t), "` at `offset`, counted in numbers of")]
            /// this size. Panics if the data section ends before it.
            #[inline]
            #[track_caller]
            pub fn $name(&mut self, offset: usize, number: $t) -> &mut Self {
                self.set(offset, number)
            }
        )*
    };
}

impl<'b> StructBuilder<'b> {
    #[inline(always)]
    pub(crate) fn of(message: &'b mut Builder, place: Option<StructPlace>) -> Self {
        StructBuilder {
            message,
            place: place.unwrap_or(NOWHERE),
        }
    }

    /// The place of the struct. If rustc knows the segment, it leaves out the code for others.
    #[inline(always)]
    fn place(&self) -> StructPlace {
        debug_assert_eq!(self.place.segment, 0, "a built message has one segment");
        StructPlace {
            segment: 0,
            ..self.place
        }
    }

    /// The same struct, borrowed from this one.
    #[inline]
    pub fn reborrow(&mut self) -> StructBuilder<'_> {
        StructBuilder {
            message: self.message,
            place: self.place,
        }
    }

    /// The struct's data words and pointers; none after a refusal.
    pub fn size(&self) -> StructSize {
        StructSize {
            data_words: (self.place.bits / 64) as u16,
            pointers: self.place.pointers,
        }
    }

    /// Writes the number at `offset`, counted in numbers of this size. Panics if the data section
    /// ends before it.
    #[inline(always)]
    #[track_caller]
    pub fn set<T: Number>(&mut self, offset: usize, number: T) -> &mut Self {
        let place = self.place();
        let numbers = place.bits as usize / (8 * T::Bits::BYTES);
        if offset < numbers {
            value::set_number(self.message.arena(), place, offset, number.into_bits());
        } else if self.message.refused().is_none() {
            no_number(offset, numbers, T::Bits::BYTES);
        }
        self
    }

    /// Writes the number at `offset` of a field whose default value is `default`: stores the
    /// exclusive or of both.
    #[inline]
    #[track_caller]
    pub fn set_or<T: Number>(&mut self, offset: usize, number: T, default: T) -> &mut Self {
        self.set(offset, number.masked(default))
    }

    set_numbers!(set_u8: u8, set_u16: u16, set_u32: u32, set_u64: u64);
    set_numbers!(set_i8: i8, set_i16: i16, set_i32: i32, set_i64: i64);
    set_numbers!(set_f32: f32, set_f64: f64);

    /// Writes the bit at `offset`. Panics if the data section ends before it.
    #[inline]
    #[track_caller]
    pub fn set_bool(&mut self, offset: usize, bit: bool) -> &mut Self {
        let place = self.place();
        if offset < place.bits as usize {
            value::set_bool(self.message.arena(), place, offset, bit);
        } else if self.message.refused().is_none() {
            no_bit(offset, place.bits);
        }
        self
    }

    /// The number at `offset`, counted in numbers of this size; 0 if the data section ends before
    /// it, or after a refusal.
    #[inline]
    pub fn get<T: Number>(&self, offset: usize) -> T {
        let is_inside = offset < self.place.bits as usize / (8 * T::Bits::BYTES);
        match self.message.unless_refused() {
            Some(arena) if is_inside => {
                T::from_bits(reading::get_number(arena, self.place(), offset))
            }
            _ => T::from_bits(crate::proved::capnp_words::zero::Zero::zero()),
        }
    }

    /// The bit at `offset`; `false` if the data section ends before it, or after a refusal.
    pub fn get_bool(&self, offset: usize) -> bool {
        let is_inside = offset < self.place.bits as usize;
        self.message
            .unless_refused()
            .is_some_and(|arena| is_inside && reading::get_bool(arena, self.place(), offset))
    }

    /// Whether pointer `index` isn't null; `false` if there is no such pointer, or after a refusal.
    pub fn has(&self, index: usize) -> bool {
        let is_inside = index < usize::from(self.place.pointers);
        self.message
            .unless_refused()
            .is_some_and(|arena| is_inside && reading::has(arena, self.place(), index))
    }

    /// The arena, to change pointer `index`, which the struct has to have; `None` after a refusal.
    #[inline(always)]
    #[track_caller]
    fn changeable(&mut self, index: usize) -> Option<&mut BuiltArena> {
        let place = self.place();
        let arena = self.message.changeable()?;
        check_pointer(place, index);
        Some(arena)
    }

    /// Makes pointer `index` null, and zeroes what it held. Panics like all calls below if there is
    /// no such pointer.
    #[track_caller]
    pub fn clear(&mut self, index: usize) -> &mut Self {
        let place = self.place();
        if let Some(arena) = self.changeable(index) {
            value::clear(arena, place, index);
        }
        self
    }

    /// Makes pointer `index` lead to a text.
    #[inline]
    #[track_caller]
    pub fn set_text(&mut self, index: usize, text: &str) -> &mut Self {
        self.write_text(index, text);
        self
    }

    /// Makes pointer `index` lead to data.
    #[inline]
    #[track_caller]
    pub fn set_data(&mut self, index: usize, data: &[u8]) -> &mut Self {
        self.write_data(index, data);
        self
    }

    /// Makes pointer `index` a capability: entry `capability` of the message's table, which is the
    /// program's.
    #[track_caller]
    pub fn set_capability(&mut self, index: usize, capability: u32) -> &mut Self {
        let place = self.place();
        if let Some(arena) = self.changeable(index) {
            value::set_capability(arena, place, index, capability);
        }
        self
    }

    /// Makes pointer `index` lead to a copy of a struct that is read.
    #[track_caller]
    pub fn set_struct<M: Meter>(&mut self, index: usize, from: Struct<'_, M>) -> &mut Self {
        let (place, raw) = (self.place(), from.raw);
        if let Some(arena) = self.changeable(index) {
            let read = |lim: &mut _| copying::set_struct_from(arena, place, index, &raw, lim);
            let made = from.meter.charge(read);
            self.message.keep(made);
        }
        self
    }

    /// Makes pointer `index` lead to a copy of a list that is read.
    #[track_caller]
    pub fn set_list<T: Element + ?Sized, M: Meter>(
        &mut self,
        index: usize,
        from: List<'_, T, M>,
    ) -> &mut Self {
        let (place, raw) = (self.place(), from.raw);
        if let Some(arena) = self.changeable(index) {
            let read = |lim: &mut _| copying::set_list_from(arena, place, index, &raw, lim);
            let made = from.meter.charge(read);
            self.message.keep(made);
        }
        self
    }

    /// Makes pointer `index` lead to a copy of what a pointer that is read leads to.
    #[track_caller]
    pub fn set_pointer<M: Meter>(&mut self, index: usize, from: Pointer<'_, M>) -> &mut Self {
        let (place, raw) = (self.place(), from.raw);
        if let Some(arena) = self.changeable(index) {
            let read = |lim: &mut _| copying::set_pointer_from(arena, place, index, raw, lim);
            let made = from.meter.charge(read);
            self.message.keep(made);
        }
        self
    }

    /// Makes pointer `index` lead to a new struct, all zero and null.
    #[inline]
    #[track_caller]
    pub fn init_struct(&mut self, index: usize, size: StructSize) -> StructBuilder<'_> {
        let made = self.new_struct(index, size);
        StructBuilder::of(self.message, made)
    }

    /// The struct of pointer `index`, to be changed: with sections at least as large as `size`, and
    /// a new struct if the pointer is null. If the pointer leads to something else, that is
    /// refused.
    #[track_caller]
    pub fn edit_struct(&mut self, index: usize, size: StructSize) -> StructBuilder<'_> {
        let found = self.old_struct(index, size);
        StructBuilder::of(self.message, found)
    }

    /// Makes pointer `index` lead to a new list of `count` elements, all zero or null. For structs
    /// there is [`init_structs`](StructBuilder::init_structs).
    #[inline]
    #[track_caller]
    pub fn init_list<T: Element + ?Sized>(
        &mut self,
        index: usize,
        count: usize,
    ) -> ListBuilder<'_, T> {
        const { check_element(T::SIZE) };
        let made = self.new_list(index, T::SIZE, count);
        ListBuilder::of(self.message, made)
    }

    /// Makes pointer `index` lead to a new list of `count` structs, all zero and null.
    #[inline]
    #[track_caller]
    pub fn init_structs(
        &mut self,
        index: usize,
        count: usize,
        size: StructSize,
    ) -> ListBuilder<'_, Structs> {
        let made = self.new_structs(index, count, size);
        ListBuilder::of(self.message, made)
    }

    /// The list of structs of pointer `index`, to be changed: with structs at least as large as
    /// `size`, and without elements if the pointer is null. If the pointer leads to something
    /// else, that is refused.
    #[track_caller]
    pub fn edit_structs(&mut self, index: usize, size: StructSize) -> ListBuilder<'_, Structs> {
        let found = self.old_structs(index, size);
        ListBuilder::of(self.message, found)
    }
}

/// What the calls above do, unless something is or was refused.
impl StructBuilder<'_> {
    #[inline(always)]
    #[track_caller]
    fn write_text(&mut self, index: usize, text: &str) -> Option<()> {
        let place = self.place();
        self.message.count_of(text.len() + 1, 1)?;
        let made = value::set_text(self.changeable(index)?, place, index, text.as_bytes());
        self.message.keep(made)
    }

    #[inline(always)]
    #[track_caller]
    fn write_data(&mut self, index: usize, data: &[u8]) -> Option<()> {
        let place = self.place();
        self.message.count_of(data.len(), 1)?;
        let made = value::set_data(self.changeable(index)?, place, index, data);
        self.message.keep(made)
    }

    #[inline(always)]
    #[track_caller]
    fn new_struct(&mut self, index: usize, size: StructSize) -> Option<StructPlace> {
        let place = self.place();
        let made = value::init_struct(self.changeable(index)?, place, index, size);
        self.message.keep(made)
    }

    #[track_caller]
    fn old_struct(&mut self, index: usize, size: StructSize) -> Option<StructPlace> {
        let place = self.place();
        let found = opening::get_struct(self.changeable(index)?, place, index, size);
        self.message.keep(found)
    }

    #[inline(always)]
    #[track_caller]
    fn new_list(&mut self, index: usize, size: ElementSize, count: usize) -> Option<ListPlace> {
        let place = self.place();
        let count = self.message.count_of(count, 1)?;
        let made = value::init_list(self.changeable(index)?, place, index, size, count);
        self.message.keep(made)
    }

    #[inline(always)]
    #[track_caller]
    fn new_structs(&mut self, index: usize, count: usize, size: StructSize) -> Option<ListPlace> {
        let place = self.place();
        let count = self.message.count_of(count, size.total() as usize)?;
        let made = value::init_struct_list(self.changeable(index)?, place, index, count, size);
        self.message.keep(made)
    }

    #[track_caller]
    fn old_structs(&mut self, index: usize, size: StructSize) -> Option<ListPlace> {
        let place = self.place();
        let found = opening::get_struct_list(self.changeable(index)?, place, index, size);
        self.message.keep(found)
    }
}
