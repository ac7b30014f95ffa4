//! Readers that calls return, and the elements of lists. For an element that doesn't exist, the
//! functions return `Unfit`.

use crate::parse::Fault;
use capnp_proved::capnp_arena::arena::ReaderArena;
use capnp_proved::capnp_readers::readers::{
    ListReader, PointerReader, PrimitiveElement, StructReader,
};
use capnp_proved::capnp_words::wire_pointer::{data_bits_per_element, ElementSize};

/// A reader that a call has returned.
pub enum Reader<'a, A: ReaderArena> {
    Pointer(PointerReader<'a, A>),
    Struct(StructReader<'a, A>),
    List(ListReader<'a, A>),
}

impl<A: ReaderArena> Clone for Reader<'_, A> {
    fn clone(&self) -> Self {
        *self
    }
}

impl<A: ReaderArena> Copy for Reader<'_, A> {}

/// Returns element `index` as a number or a bit; `Unfit` if there is no such element, or its data
/// is too narrow.
pub fn number_at<E: PrimitiveElement, A: ReaderArena>(
    list: &ListReader<'_, A>,
    index: u32,
) -> Result<E, Fault> {
    let needed = data_bits_per_element(E::element_size());
    if index < list.len() && needed <= list.element_data_bits() {
        Ok(E::get(list, index))
    } else {
        Err(Fault::Unfit)
    }
}

/// Returns element `index` as a struct; `Unfit` if there is no such element, or the elements are
/// bits.
pub fn struct_at<'a, A: ReaderArena>(
    list: &ListReader<'a, A>,
    index: u32,
) -> Result<StructReader<'a, A>, Fault> {
    if index < list.len() && list.get_element_size() != ElementSize::Bit {
        Ok(list.get_struct_element(index))
    } else {
        Err(Fault::Unfit)
    }
}

/// Like `struct_at`, but the struct has the list's own nesting limit.
pub fn struct_at_with_list_limit<'a, A: ReaderArena>(
    list: &ListReader<'a, A>,
    index: u32,
) -> Result<StructReader<'a, A>, Fault> {
    if index < list.len() && list.get_element_size() != ElementSize::Bit {
        Ok(list.element(index))
    } else {
        Err(Fault::Unfit)
    }
}

/// Returns the pointer in element `index`: the element itself, or a struct's first pointer; `Unfit`
/// if there is none.
pub fn pointer_at<'a, A: ReaderArena>(
    list: &ListReader<'a, A>,
    index: u32,
) -> Result<PointerReader<'a, A>, Fault> {
    if index >= list.len() {
        return Err(Fault::Unfit);
    }
    let holds_pointer = match list.get_element_size() {
        ElementSize::Pointer => true,
        ElementSize::InlineComposite => list.struct_size().pointers > 0,
        _ => false,
    };
    if holds_pointer {
        Ok(list.get_pointer_element(index))
    } else {
        Err(Fault::Unfit)
    }
}

/// Returns the lowest bits of the data of element `index`; `Unfit` if there is no such element.
pub fn low_data_at<A: ReaderArena>(list: &ListReader<'_, A>, index: u32) -> Result<u64, Fault> {
    if index < list.len() {
        Ok(list.element_data(index))
    } else {
        Err(Fault::Unfit)
    }
}
