//! List elements that are numbers, bits or nothing: read from a list being read, and read and
//! written in a list being built (encoding specification, "Lists").

use crate::proved::capnp_arena_traits::arena::{BuilderArena, ReaderArena};
use crate::proved::capnp_builders::builders::ListBuilder;
use crate::proved::capnp_readers::readers;
use crate::proved::capnp_readers::readers::ListReader;
use crate::proved::capnp_words::primitive::Primitive;
use crate::proved::capnp_words::wire_pointer::ElementSize;

/// A type for reading and writing the elements of a list: a number, a bit, or nothing.
pub trait PrimitiveElement {
    /// Reads element `index` of `list`: the number in the lowest bytes of the element's data, or
    /// the lowest bit of that data.
    ///
    /// Precondition: unless `Self` is `()`, `index` is below the number of elements of `list`, and
    /// each of these has at least as many bits of data as the value. The data of a struct is its
    /// data section, so a list of numbers that became a list of structs reads as before.
    ///
    /// # Preconditions
    ///
    /// ```text
    /// requires range { 0 < element_bits (size_number size) → index < list.now.count }
    /// requires wide { element_bits (size_number size)
    ///     ≤ data_bits list.now.element_size list.now.struct_size }
    /// ```
    fn get<A: ReaderArena>(list: &ListReader<'_, A>, index: u32) -> Self;

    /// Like `get`, for a list being built. Preconditions: `list` is inside the message; unless
    /// `Self` is `()`, `index` is below the number of elements, and each element has at least as
    /// many bits of data as the value.
    ///
    /// # Preconditions
    ///
    /// ```text
    /// requires inside { IsListPlace (A.view list.now.arena.now).words list.now.place }
    /// requires range { 0 < element_bits (size_number size) → index < list.now.place.count }
    /// requires wide { element_bits (size_number size)
    ///     ≤ data_bits list.now.place.size list.now.place.struct_size }
    /// ```
    fn get_from_builder<A: BuilderArena>(list: &ListBuilder<'_, A>, index: u32) -> Self;

    /// Writes element `index` of `list`: replaces the lowest bits of the element's data by the bits
    /// of `value`. The data of a struct is its data section. Preconditions: `list` is inside the
    /// message; unless `Self` is `()`, `index` is below the number of elements, and each element
    /// has at least as many bits of data as the value.
    ///
    /// # Preconditions
    ///
    /// ```text
    /// requires inside { IsListPlace (A.view list.old.arena.now).words list.old.place }
    /// requires range { 0 < element_bits (size_number size) → index < list.old.place.count }
    /// requires wide { element_bits (size_number size)
    ///     ≤ data_bits list.old.place.size list.old.place.struct_size }
    /// ```
    fn set<A: BuilderArena>(list: &mut ListBuilder<'_, A>, index: u32, value: Self);

    /// The element size of a list of this type: the one with the type's number of bytes, `Bit` for
    /// a `bool`, or `Void` for `()`.
    fn element_size() -> ElementSize;
}

impl PrimitiveElement for u8 {
    #[inline]
    fn get<A: ReaderArena>(list: &ListReader<'_, A>, index: u32) -> u8 {
        <u8 as readers::PrimitiveElement>::get(list, index)
    }

    #[inline]
    fn get_from_builder<A: BuilderArena>(list: &ListBuilder<'_, A>, index: u32) -> u8 {
        list.get_number_at(index)
    }

    #[inline]
    fn set<A: BuilderArena>(list: &mut ListBuilder<'_, A>, index: u32, value: u8) {
        list.set_number_at(index, value);
    }

    #[inline]
    fn element_size() -> ElementSize {
        ElementSize::Byte
    }
}

impl PrimitiveElement for u16 {
    #[inline]
    fn get<A: ReaderArena>(list: &ListReader<'_, A>, index: u32) -> u16 {
        <u16 as readers::PrimitiveElement>::get(list, index)
    }

    #[inline]
    fn get_from_builder<A: BuilderArena>(list: &ListBuilder<'_, A>, index: u32) -> u16 {
        list.get_number_at(index)
    }

    #[inline]
    fn set<A: BuilderArena>(list: &mut ListBuilder<'_, A>, index: u32, value: u16) {
        list.set_number_at(index, value);
    }

    #[inline]
    fn element_size() -> ElementSize {
        ElementSize::TwoBytes
    }
}

impl PrimitiveElement for u32 {
    #[inline]
    fn get<A: ReaderArena>(list: &ListReader<'_, A>, index: u32) -> u32 {
        <u32 as readers::PrimitiveElement>::get(list, index)
    }

    #[inline]
    fn get_from_builder<A: BuilderArena>(list: &ListBuilder<'_, A>, index: u32) -> u32 {
        list.get_number_at(index)
    }

    #[inline]
    fn set<A: BuilderArena>(list: &mut ListBuilder<'_, A>, index: u32, value: u32) {
        list.set_number_at(index, value);
    }

    #[inline]
    fn element_size() -> ElementSize {
        ElementSize::FourBytes
    }
}

impl PrimitiveElement for u64 {
    #[inline]
    fn get<A: ReaderArena>(list: &ListReader<'_, A>, index: u32) -> u64 {
        <u64 as readers::PrimitiveElement>::get(list, index)
    }

    #[inline]
    fn get_from_builder<A: BuilderArena>(list: &ListBuilder<'_, A>, index: u32) -> u64 {
        list.get_number_at(index)
    }

    #[inline]
    fn set<A: BuilderArena>(list: &mut ListBuilder<'_, A>, index: u32, value: u64) {
        list.set_number_at(index, value);
    }

    #[inline]
    fn element_size() -> ElementSize {
        ElementSize::EightBytes
    }
}

impl PrimitiveElement for i8 {
    #[inline]
    fn get<A: ReaderArena>(list: &ListReader<'_, A>, index: u32) -> i8 {
        <i8 as readers::PrimitiveElement>::get(list, index)
    }

    #[inline]
    fn get_from_builder<A: BuilderArena>(list: &ListBuilder<'_, A>, index: u32) -> i8 {
        list.get_number_at(index)
    }

    #[inline]
    fn set<A: BuilderArena>(list: &mut ListBuilder<'_, A>, index: u32, value: i8) {
        list.set_number_at(index, value);
    }

    #[inline]
    fn element_size() -> ElementSize {
        ElementSize::Byte
    }
}

impl PrimitiveElement for i16 {
    #[inline]
    fn get<A: ReaderArena>(list: &ListReader<'_, A>, index: u32) -> i16 {
        <i16 as readers::PrimitiveElement>::get(list, index)
    }

    #[inline]
    fn get_from_builder<A: BuilderArena>(list: &ListBuilder<'_, A>, index: u32) -> i16 {
        list.get_number_at(index)
    }

    #[inline]
    fn set<A: BuilderArena>(list: &mut ListBuilder<'_, A>, index: u32, value: i16) {
        list.set_number_at(index, value);
    }

    #[inline]
    fn element_size() -> ElementSize {
        ElementSize::TwoBytes
    }
}

impl PrimitiveElement for i32 {
    #[inline]
    fn get<A: ReaderArena>(list: &ListReader<'_, A>, index: u32) -> i32 {
        <i32 as readers::PrimitiveElement>::get(list, index)
    }

    #[inline]
    fn get_from_builder<A: BuilderArena>(list: &ListBuilder<'_, A>, index: u32) -> i32 {
        list.get_number_at(index)
    }

    #[inline]
    fn set<A: BuilderArena>(list: &mut ListBuilder<'_, A>, index: u32, value: i32) {
        list.set_number_at(index, value);
    }

    #[inline]
    fn element_size() -> ElementSize {
        ElementSize::FourBytes
    }
}

impl PrimitiveElement for i64 {
    #[inline]
    fn get<A: ReaderArena>(list: &ListReader<'_, A>, index: u32) -> i64 {
        <i64 as readers::PrimitiveElement>::get(list, index)
    }

    #[inline]
    fn get_from_builder<A: BuilderArena>(list: &ListBuilder<'_, A>, index: u32) -> i64 {
        list.get_number_at(index)
    }

    #[inline]
    fn set<A: BuilderArena>(list: &mut ListBuilder<'_, A>, index: u32, value: i64) {
        list.set_number_at(index, value);
    }

    #[inline]
    fn element_size() -> ElementSize {
        ElementSize::EightBytes
    }
}

impl PrimitiveElement for bool {
    #[inline]
    fn get<A: ReaderArena>(list: &ListReader<'_, A>, index: u32) -> bool {
        <bool as readers::PrimitiveElement>::get(list, index)
    }

    #[inline]
    fn get_from_builder<A: BuilderArena>(list: &ListBuilder<'_, A>, index: u32) -> bool {
        list.get_bit_at(index)
    }

    #[inline]
    fn set<A: BuilderArena>(list: &mut ListBuilder<'_, A>, index: u32, value: bool) {
        list.set_bit_at(index, value);
    }

    #[inline]
    fn element_size() -> ElementSize {
        ElementSize::Bit
    }
}

impl PrimitiveElement for () {
    #[inline]
    fn get<A: ReaderArena>(list: &ListReader<'_, A>, index: u32) {
        <() as readers::PrimitiveElement>::get(list, index)
    }

    #[inline]
    fn get_from_builder<A: BuilderArena>(_list: &ListBuilder<'_, A>, _index: u32) {}

    #[inline]
    fn set<A: BuilderArena>(_list: &mut ListBuilder<'_, A>, _index: u32, _value: ()) {}

    #[inline]
    fn element_size() -> ElementSize {
        ElementSize::Void
    }
}
