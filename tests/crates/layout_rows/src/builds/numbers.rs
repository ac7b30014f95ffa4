//! Numbers of the data section of a struct, and of the elements of a list.

use super::call::Access;
use super::place::{list_builder, struct_builder, Place};
use crate::calls::Values;
use crate::output::Output;
use crate::parse::{self, Fault};
use crate::types::NumberType;
use capnp_proved::capnp_arena::arena::BuilderArena;
use capnp_proved::capnp_builders::builders::PrimitiveElement;
use capnp_proved::capnp_readers::readers::{ListPlace, StructPlace};
use capnp_proved::capnp_words::mask::Mask;
use capnp_proved::capnp_words::primitive::Primitive;
use capnp_proved::capnp_words::wire_pointer::{data_bits_per_element, ElementSize};
use capnp_proved::capnp_words::zero::Zero;
use std::fmt::Display;
use std::str::FromStr;

/// Reads a number in a struct or a list, and adds it to the answer; or writes the number. `of` is
/// the number's type.
pub fn access_number<A: BuilderArena>(
    arena: &mut A,
    place: Place,
    (of, access): (NumberType, Access),
    values: &Values<'_>,
    out: &mut Output,
) -> Result<(), Fault> {
    match of {
        NumberType::U8 => access_number_as::<A, u8>(arena, place, access, values, out),
        NumberType::U16 => access_number_as::<A, u16>(arena, place, access, values, out),
        NumberType::U32 => access_number_as::<A, u32>(arena, place, access, values, out),
        NumberType::U64 => access_number_as::<A, u64>(arena, place, access, values, out),
        NumberType::I8 => access_number_as::<A, i8>(arena, place, access, values, out),
        NumberType::I16 => access_number_as::<A, i16>(arena, place, access, values, out),
        NumberType::I32 => access_number_as::<A, i32>(arena, place, access, values, out),
        NumberType::I64 => access_number_as::<A, i64>(arena, place, access, values, out),
    }
}

/// Adds a number of the type `T`, of a struct or a list, or writes it.
fn access_number_as<
    A: BuilderArena,
    T: Primitive + Zero + Mask<T = T> + PrimitiveElement + FromStr + Display,
>(
    arena: &mut A,
    place: Place,
    access: Access,
    values: &Values<'_>,
    out: &mut Output,
) -> Result<(), Fault> {
    match access {
        Access::Get => {
            let value: T = get_number::<A, T>(arena, place, values)?;
            out.push(value);
        }
        Access::Set => {
            set_number::<A, T>(arena, place, values)?;
            out.push_text("ok");
        }
    }
    Ok(())
}

/// A number of a struct or a list.
fn get_number<A: BuilderArena, T: Primitive + Zero + Mask<T = T> + PrimitiveElement + FromStr>(
    arena: &mut A,
    place: Place,
    values: &Values<'_>,
) -> Result<T, Fault> {
    match place {
        Place::Struct(place) => get_field(arena, place, values),
        Place::List(place) => get_element(arena, place, values.count),
        Place::Pointer(_) => Err(Fault::Unfit),
    }
}

/// Writes a number of a struct or a list.
fn set_number<A: BuilderArena, T: Primitive + Zero + Mask<T = T> + PrimitiveElement + FromStr>(
    arena: &mut A,
    place: Place,
    values: &Values<'_>,
) -> Result<(), Fault> {
    match place {
        Place::Struct(place) => set_field(arena, place, values, parse::number::<T>(values.digits)?),
        Place::List(place) => set_element(
            arena,
            place,
            values.count,
            parse::number::<T>(values.digits)?,
        ),
        Place::Pointer(_) => Err(Fault::Unfit),
    }
}

/// Writes a number of a struct, with a mask if there is one.
fn set_field<A: BuilderArena, T: Primitive + Zero + Mask<T = T> + FromStr>(
    arena: &mut A,
    place: StructPlace,
    values: &Values<'_>,
    value: T,
) -> Result<(), Fault> {
    let mask: Option<T> = parse::number_mask(values.mask)?;
    let mut builder = struct_builder(arena, place)?;
    let index = values.index;
    if !has_field(place.bits, 8 * T::BYTES, index) {
        return Err(Fault::Unfit);
    }
    match mask {
        Some(mask) => builder.set_data_field_mask(index, value, mask),
        None => builder.set_data_field(index, value),
    }
    Ok(())
}

/// A number of a struct, with a mask if there is one.
fn get_field<A: BuilderArena, T: Primitive + Zero + Mask<T = T> + FromStr>(
    arena: &mut A,
    place: StructPlace,
    values: &Values<'_>,
) -> Result<T, Fault> {
    let mask: Option<T> = parse::number_mask(values.mask)?;
    let builder = struct_builder(arena, place)?;
    let index = values.index;
    if !has_field(place.bits, 8 * T::BYTES, index) {
        return Err(Fault::Unfit);
    }
    Ok(match mask {
        Some(mask) => builder.get_data_field_mask(index, mask),
        None => builder.get_data_field(index),
    })
}

/// Whether field `index`, counted in fields of its width, is inside a data section of `bits` bits.
fn has_field(bits: u32, width: usize, index: usize) -> bool {
    index < bits as usize / width
}

/// Writes element `index` of a list; `Unfit` if the list isn't in the message, or has no such
/// element, or the element is too narrow. For `()`, no element is needed.
pub fn set_element<A: BuilderArena, T: PrimitiveElement>(
    arena: &mut A,
    place: ListPlace,
    index: u32,
    value: T,
) -> Result<(), Fault> {
    let mut builder = list_builder(arena, place)?;
    if !has_element(place, T::element_size(), index) {
        return Err(Fault::Unfit);
    }
    T::set(&mut builder, index, value);
    Ok(())
}

/// Returns element `index` of a list; `Unfit` if the list isn't in the message, or has no such
/// element, or the element is too narrow. For `()`, no element is needed.
pub fn get_element<A: BuilderArena, T: PrimitiveElement>(
    arena: &mut A,
    place: ListPlace,
    index: u32,
) -> Result<T, Fault> {
    let builder = list_builder(arena, place)?;
    if !has_element(place, T::element_size(), index) {
        return Err(Fault::Unfit);
    }
    Ok(T::get_from_builder(&builder, index))
}

/// Whether there is such an element, whose data is as wide as that of elements of a size, or these
/// have no data.
fn has_element(place: ListPlace, size: ElementSize, index: u32) -> bool {
    let bits = match place.size {
        ElementSize::InlineComposite => 64 * u32::from(place.struct_size.data_words),
        size => data_bits_per_element(size),
    };
    let wanted = data_bits_per_element(size);
    wanted == 0 || index < place.count && wanted <= bits
}
