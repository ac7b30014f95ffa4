//! What generated types add to messages: structs by their types, enums as numbers, and any pointer
//! of a message that is being built.

use crate::builder::Builder;
use crate::building::StructBuilder;
use crate::element::{Element, Lists, Number};
use crate::list_building::ListBuilder;
use crate::meter::sealed::Closed;
use crate::meter::Meter;
use crate::proved::capnp_readers::readers::{ListReader, PrimitiveElement};
use crate::proved::capnp_words::wire_pointer::{ElementSize, StructSize};
use crate::reading::{Pointer, Struct};
use crate::segments::Arena;
use core::fmt;

/// A struct of a schema that is being built.
pub trait TypedBuilder<'b>: From<StructBuilder<'b>> {
    /// The struct's data words and pointers.
    const SIZE: StructSize;
}

/// A struct of a schema: the type of its reader.
pub trait StructType: Element {
    /// The struct while a message is built.
    type Builder<'b>: TypedBuilder<'b>;
    /// The id of the type in the schema. Canonical words don't tell their type, so sign it with
    /// them: `message.digest_with(&Person::TYPE_ID.to_le_bytes())`.
    const TYPE_ID: u64;
    /// What the pointers of the schema's structs may lead to: a table in the form of
    /// `typed_conforming`.
    #[doc(hidden)]
    const TABLE: &'static [u32];
    /// For each row of the table a line: its position, its name, and the names of its pointers with
    /// commas between them.
    #[doc(hidden)]
    const NAMES: &'static str;
    /// The position of the struct's row.
    #[doc(hidden)]
    const ROW: u32;
    /// The reader of a struct.
    #[doc(hidden)]
    fn of<'a, M: Meter>(fields: Struct<'a, M>) -> Self::Item<'a, M>;
}

/// The sections of structs of a type.
const fn sections<T: StructType>() -> StructSize {
    <T::Builder<'static> as TypedBuilder<'static>>::SIZE
}

/// An enum of a schema.
pub trait Enum: Copy + fmt::Debug + From<u16> + Into<u16> {}

impl<T: Enum> Closed for T {}

impl<T: Enum> Element for T {
    const SIZE: ElementSize = ElementSize::TwoBytes;
    type Item<'a, M: Meter> = T;

    #[inline(always)]
    fn read<'a, M: Meter>(list: &ListReader<'a, Arena<'a>>, _: M, index: u32) -> T {
        T::from(<u16 as PrimitiveElement>::get(list, index))
    }
}

impl<T: Enum> Number for T {
    type Bits = u16;

    #[inline(always)]
    fn from_bits(bits: u16) -> Self {
        T::from(bits)
    }

    #[inline(always)]
    fn into_bits(self) -> u16 {
        self.into()
    }

    #[inline(always)]
    fn masked(self, mask: Self) -> Self {
        T::from(self.into() ^ mask.into())
    }
}

impl Builder {
    /// Makes the root a new struct of this type. Its fields have their default values.
    #[inline]
    pub fn init<T: StructType>(&mut self) -> T::Builder<'_> {
        self.init_root(sections::<T>()).into()
    }

    /// The root as a struct of this type, to be changed. See [`edit_root`](Builder::edit_root).
    pub fn edit<T: StructType>(&mut self) -> T::Builder<'_> {
        self.edit_root(sections::<T>()).into()
    }
}

/// Lists of structs of a schema.
impl<T: StructType> ListBuilder<'_, T> {
    /// Struct `index`. Panics if there is no such element, like `[]` of a slice.
    #[inline]
    #[track_caller]
    pub fn at(&mut self, index: usize) -> T::Builder<'_> {
        self.struct_at(index).into()
    }

    /// Struct `index`; `None` if there is no such element, or after a refusal.
    pub fn get(&mut self, index: usize) -> Option<T::Builder<'_>> {
        if index < self.len() {
            Some(self.at(index))
        } else {
            None
        }
    }

    /// The next struct, from the first on; `None` after the last. For `while let Some(mut person) =
    /// people.next()`.
    #[inline]
    #[allow(clippy::should_implement_trait)] // each struct borrows the list
    pub fn next(&mut self) -> Option<T::Builder<'_>> {
        Some(self.next_struct()?.into())
    }

    /// Calls `write` with a struct for each item: the first structs if there are fewer items, the
    /// first items if there are more.
    pub fn fill_with<I: IntoIterator>(
        &mut self,
        items: I,
        mut write: impl FnMut(T::Builder<'_>, I::Item),
    ) {
        for (index, item) in (0..self.len()).zip(items) {
            write(self.at(index), item);
        }
    }
}

/// Lists of lists of structs of a schema.
impl<T: StructType> ListBuilder<'_, Lists<T>> {
    /// Makes element `index` a new list of `count` structs. Panics if there is no such element.
    #[track_caller]
    pub fn init_structs(&mut self, index: usize, count: usize) -> ListBuilder<'_, T> {
        self.new_list_of_structs(index, count, sections::<T>())
    }
}

/// What setters of generated builders call.
impl StructBuilder<'_> {
    /// Makes pointer `index` lead to a new struct of this type.
    #[doc(hidden)]
    #[inline]
    #[track_caller]
    pub fn init_as<'s, B: TypedBuilder<'s>>(&'s mut self, index: usize) -> B {
        self.init_struct(index, B::SIZE).into()
    }

    /// The struct of pointer `index`, to be changed. See
    /// [`edit_struct`](StructBuilder::edit_struct).
    #[doc(hidden)]
    #[track_caller]
    pub fn edit_as<'s, B: TypedBuilder<'s>>(&'s mut self, index: usize) -> B {
        self.edit_struct(index, B::SIZE).into()
    }

    /// Makes pointer `index` lead to a new list of `count` structs of this type.
    #[doc(hidden)]
    #[inline]
    #[track_caller]
    pub fn init_structs_of<T: StructType>(
        &mut self,
        index: usize,
        count: usize,
    ) -> ListBuilder<'_, T> {
        self.init_structs(index, count, sections::<T>()).retyped()
    }

    /// The list of structs of pointer `index`, to be changed. See
    /// [`edit_structs`](StructBuilder::edit_structs).
    #[doc(hidden)]
    #[track_caller]
    pub fn edit_structs_of<T: StructType>(&mut self, index: usize) -> ListBuilder<'_, T> {
        self.edit_structs(index, sections::<T>()).retyped()
    }
}

/// Any pointer of a struct that is being built.
pub struct PointerBuilder<'b> {
    of: StructBuilder<'b>,
    index: usize,
}

impl<'b> PointerBuilder<'b> {
    /// Pointer `index` of a struct that has it.
    #[doc(hidden)]
    pub fn of(of: StructBuilder<'b>, index: usize) -> Self {
        PointerBuilder { of, index }
    }

    /// Makes the pointer null, and zeroes what it held.
    pub fn clear(&mut self) {
        self.of.clear(self.index);
    }

    /// Makes the pointer lead to a text.
    pub fn set_text(&mut self, text: &str) {
        self.of.set_text(self.index, text);
    }

    /// Makes the pointer lead to data.
    pub fn set_data(&mut self, data: &[u8]) {
        self.of.set_data(self.index, data);
    }

    /// Makes the pointer lead to a copy of what a pointer that is read leads to.
    pub fn set<M: Meter>(&mut self, from: Pointer<'_, M>) {
        self.of.set_pointer(self.index, from);
    }

    /// Makes the pointer lead to a new struct. Its fields have their default values.
    pub fn init_struct<T: StructType>(&mut self) -> T::Builder<'_> {
        self.of.init_as(self.index)
    }

    /// Makes the pointer lead to a new list of `count` elements that aren't structs, all zero or
    /// null.
    pub fn init_list<T: Element + ?Sized>(&mut self, count: usize) -> ListBuilder<'_, T> {
        self.of.init_list(self.index, count)
    }

    /// Makes the pointer lead to a new list of `count` structs.
    pub fn init_structs<T: StructType>(&mut self, count: usize) -> ListBuilder<'_, T> {
        self.of.init_structs_of(self.index, count)
    }
}
