//! Elements of lists that are numbers, bits or nothing.

use crate::proved::capnp_arena_traits::arena::ReaderArena;
use crate::proved::capnp_readers::readers::ListReader;
use crate::proved::capnp_words::primitive::Primitive;
use crate::proved::capnp_words::wire_pointer::ElementSize;

/// A type that elements of a list can be read as: a number, a bit, or nothing.
pub trait PrimitiveElement {
    /// Reads element `index` of `list`: the number in the lowest bytes of the element's data, or
    /// the lowest bit of that data.
    ///
    /// Precondition: unless `Self` is `()`, `index` is below the number of elements of `list`, and
    /// each of these has at least as many bits of data as the value. The data of a struct is its
    /// data section, so a list of numbers that became a list of structs reads as before (encoding
    /// specification, "Lists").
    ///
    /// # Preconditions
    ///
    /// ```text
    /// requires range { 0 < element_bits (size_number size) → index < list.now.count }
    /// requires wide { element_bits (size_number size)
    ///     ≤ data_bits list.now.element_size list.now.struct_size }
    /// ```
    fn get<A: ReaderArena>(list: &ListReader<'_, A>, index: u32) -> Self;

    /// The element size of a list of this type: the size with as many bytes as a number of this
    /// type, `Bit` for a `bool`, or `Void` for `()` ("Lists").
    fn element_size() -> ElementSize;
}

impl PrimitiveElement for u8 {
    #[inline]
    fn get<A: ReaderArena>(list: &ListReader<'_, A>, index: u32) -> u8 {
        list.number_at(index)
    }

    #[inline]
    fn element_size() -> ElementSize {
        ElementSize::Byte
    }
}

impl PrimitiveElement for u16 {
    #[inline]
    fn get<A: ReaderArena>(list: &ListReader<'_, A>, index: u32) -> u16 {
        list.number_at(index)
    }

    #[inline]
    fn element_size() -> ElementSize {
        ElementSize::TwoBytes
    }
}

impl PrimitiveElement for u32 {
    #[inline]
    fn get<A: ReaderArena>(list: &ListReader<'_, A>, index: u32) -> u32 {
        list.number_at(index)
    }

    #[inline]
    fn element_size() -> ElementSize {
        ElementSize::FourBytes
    }
}

impl PrimitiveElement for u64 {
    #[inline]
    fn get<A: ReaderArena>(list: &ListReader<'_, A>, index: u32) -> u64 {
        list.number_at(index)
    }

    #[inline]
    fn element_size() -> ElementSize {
        ElementSize::EightBytes
    }
}

impl PrimitiveElement for i8 {
    #[inline]
    fn get<A: ReaderArena>(list: &ListReader<'_, A>, index: u32) -> i8 {
        list.number_at(index)
    }

    #[inline]
    fn element_size() -> ElementSize {
        ElementSize::Byte
    }
}

impl PrimitiveElement for i16 {
    #[inline]
    fn get<A: ReaderArena>(list: &ListReader<'_, A>, index: u32) -> i16 {
        list.number_at(index)
    }

    #[inline]
    fn element_size() -> ElementSize {
        ElementSize::TwoBytes
    }
}

impl PrimitiveElement for i32 {
    #[inline]
    fn get<A: ReaderArena>(list: &ListReader<'_, A>, index: u32) -> i32 {
        list.number_at(index)
    }

    #[inline]
    fn element_size() -> ElementSize {
        ElementSize::FourBytes
    }
}

impl PrimitiveElement for i64 {
    #[inline]
    fn get<A: ReaderArena>(list: &ListReader<'_, A>, index: u32) -> i64 {
        list.number_at(index)
    }

    #[inline]
    fn element_size() -> ElementSize {
        ElementSize::EightBytes
    }
}

impl PrimitiveElement for bool {
    #[inline]
    fn get<A: ReaderArena>(list: &ListReader<'_, A>, index: u32) -> bool {
        list.bit_at(index)
    }

    #[inline]
    fn element_size() -> ElementSize {
        ElementSize::Bit
    }
}

impl PrimitiveElement for () {
    #[inline]
    fn get<A: ReaderArena>(_list: &ListReader<'_, A>, _index: u32) {}

    #[inline]
    fn element_size() -> ElementSize {
        ElementSize::Void
    }
}
