//! Edits of elements of lists, and of bytes of texts and data.

use crate::proved::capnp_arena::arena::BuilderArena;
use crate::proved::capnp_builders::builders::places::list_place;
use crate::proved::capnp_builders::builders::{ListBuilder, PrimitiveElement};
use crate::proved::capnp_edits::edit::path::has_words;
use crate::proved::capnp_edits::edit::tasks::{Number, Part};
use crate::proved::capnp_in_place::existing;
use crate::proved::capnp_in_place::existing::{ExistingBytes, ExistingList};
use crate::proved::capnp_in_place::numbers::set_number;
use crate::proved::capnp_readers::readers::PointerPlace;
use crate::proved::capnp_words::error::ErrorKind;
use crate::proved::capnp_words::wire_pointer::{data_bits_per_element, ElementSize};

/// The number of words that the elements of a list take, without its tag.
fn list_words(list: ExistingList) -> u64 {
    let count = u64::from(list.count);
    match list.size {
        ElementSize::InlineComposite => count * u64::from(list.struct_size.total()),
        ElementSize::Pointer => count,
        size => (count * u64::from(data_bits_per_element(size))).div_ceil(64),
    }
}

/// The number of bits of data of an element of a list.
fn element_bits(list: ExistingList) -> u32 {
    match list.size {
        ElementSize::InlineComposite => 64 * u32::from(list.struct_size.data_words),
        size => data_bits_per_element(size),
    }
}

/// Whether the list is inside the message and has an element `index`, with at least as many bits of
/// data as `size` has.
fn has_element<A: BuilderArena>(
    arena: &A,
    list: ExistingList,
    size: ElementSize,
    index: u32,
) -> bool {
    index < list.count
        && data_bits_per_element(size) <= element_bits(list)
        && arena.get_segment(list.segment).is_ok()
        && has_words(
            arena,
            list.segment,
            u64::from(list.start) + list_words(list),
        )
}

/// Writes `value` into the lowest bits of element `index` of `list`: into as many bits as an
/// element of size `size` has.
///
/// # Preconditions
///
/// ```text
/// requires element { HoldsElement A.view list.old index (element_bits (size_number size)) }
/// requires number { is_number size value ≡ true }
/// ```
fn put_element<A: BuilderArena>(
    list: &mut ListBuilder<'_, A>,
    size: ElementSize,
    index: u32,
    value: u64,
) {
    match size {
        ElementSize::Bit => <bool as PrimitiveElement>::set(list, index, value != 0),
        ElementSize::Byte => <u8 as PrimitiveElement>::set(list, index, value as u8),
        ElementSize::TwoBytes => <u16 as PrimitiveElement>::set(list, index, value as u16),
        ElementSize::FourBytes => <u32 as PrimitiveElement>::set(list, index, value as u32),
        _ => <u64 as PrimitiveElement>::set(list, index, value),
    }
}

/// Writes `number` into the lowest bits of an element of the list in `found`. If `found` is a
/// refusal, returns it; refuses with `NoSuchPlace` if there is no list, or it has no such element.
///
/// # Preconditions
///
/// ```text
/// requires number { is_number number.size number.value ≡ true }
/// requires looked { IfErr found (λ k. is_unfound k ≡ true) }
/// ```
fn set_element<A: BuilderArena>(
    arena: &mut A,
    found: Result<Option<ExistingList>, ErrorKind>,
    number: Number,
) -> Result<(), ErrorKind> {
    match found? {
        Some(list) if has_element(&*arena, list, number.size, number.index) => {
            let place = list_place(list);
            put_element(
                &mut ListBuilder { arena, place },
                number.size,
                number.index,
                number.value,
            );
            Ok(())
        }
        _ => Err(ErrorKind::NoSuchPlace),
    }
}

/// Writes `value` to byte `index` of the text or data in `found`. If `found` is a refusal, returns
/// it; refuses with `NoSuchPlace` if there is no such byte.
///
/// # Preconditions
///
/// ```text
/// requires { IfErr found (λ k. is_unfound k ≡ true) }
/// ```
fn write_byte<A: BuilderArena>(
    arena: &mut A,
    found: Result<Option<ExistingBytes>, ErrorKind>,
    index: u32,
    value: u8,
) -> Result<(), ErrorKind> {
    match found? {
        Some(bytes) if index < bytes.length && existing::are_inside(&*arena, bytes) => {
            let byte = 8 * u64::from(bytes.start) + u64::from(index);
            set_number(arena, bytes.segment, byte, value);
            Ok(())
        }
        _ => Err(ErrorKind::NoSuchPlace),
    }
}

/// Writes the number or byte of `part` into the list, text or data that the pointer at `place`
/// leads to.
///
/// # Preconditions
///
/// ```text
/// requires there { IsPlace (A.view arena.old).words place.segment place.word }
/// requires range { is_in_range (Write part) ≡ true }
/// ```
pub(in crate::proved::capnp_edits) fn edit_part<A: BuilderArena>(
    arena: &mut A,
    place: PointerPlace,
    part: Part,
) -> Result<(), ErrorKind> {
    match part {
        Part::ListElement(number) => {
            let found = existing::get_list(&*arena, place.segment, place.word, number.size);
            set_element(arena, found, number)
        }
        Part::TextByte(index, value) => {
            let found = existing::get_text(&*arena, place.segment, place.word);
            write_byte(arena, found, index, value)
        }
        Part::DataByte(index, value) => {
            let found = existing::get_data(&*arena, place.segment, place.word);
            write_byte(arena, found, index, value)
        }
    }
}
