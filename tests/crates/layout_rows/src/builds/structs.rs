//! Calls on a struct.

use super::call::{Access, StructCall};
use super::numbers::access_number;
use super::place::{struct_builder, Place};
use crate::calls::Values;
use crate::output::Output;
use crate::parse::{self, Fault};
use capnp_proved::capnp_arena::arena::BuilderArena;
use capnp_proved::capnp_readers::readers::{PointerPlace, StructPlace};

/// Makes a call on a struct and adds its answer.
pub fn make_call<A: BuilderArena>(
    arena: &mut A,
    place: StructPlace,
    (call, values): (StructCall, &Values<'_>),
    out: &mut Output,
) -> Result<Option<Place>, Fault> {
    match call {
        StructCall::Field => return get_pointer_field(arena, place, values.index),
        StructCall::IsFieldNull => push_is_pointer_null(arena, place, values.index, out)?,
        StructCall::Bool(access) => access_bit(arena, place, access, values, out)?,
        StructCall::Number(of, access) => {
            access_number(arena, Place::Struct(place), (of, access), values, out)?;
        }
    }
    Ok(None)
}

/// Returns a pointer.
fn get_pointer_field<A: BuilderArena>(
    arena: &mut A,
    place: StructPlace,
    index: usize,
) -> Result<Option<Place>, Fault> {
    let builder = struct_builder(arena, place)?;
    if index >= usize::from(place.pointers) {
        return Err(Fault::Unfit);
    }
    let pointer = builder.get_pointer_field(index);
    let place = PointerPlace {
        segment: pointer.segment,
        word: pointer.at,
    };
    Ok(Some(Place::Pointer(place)))
}

/// Adds whether a pointer is zero.
fn push_is_pointer_null<A: BuilderArena>(
    arena: &mut A,
    place: StructPlace,
    index: usize,
    out: &mut Output,
) -> Result<(), Fault> {
    let builder = struct_builder(arena, place)?;
    if index >= usize::from(place.pointers) {
        return Err(Fault::Unfit);
    }
    out.push_flag(builder.is_pointer_field_null(index));
    Ok(())
}

/// Adds a bit, or writes it, with a mask if there is one.
fn access_bit<A: BuilderArena>(
    arena: &mut A,
    place: StructPlace,
    access: Access,
    values: &Values<'_>,
    out: &mut Output,
) -> Result<(), Fault> {
    let mask = parse::bool_mask(values.mask)?;
    let index = values.index;
    if index >= place.bits as usize {
        return Err(Fault::Unfit);
    }
    match access {
        Access::Get => out.push_flag(get_bit(arena, place, index, mask)?),
        Access::Set => {
            set_bit(arena, place, index, values.flag, mask)?;
            out.push_text("ok");
        }
    }
    Ok(())
}

/// A bit of a struct, with a mask if there is one.
fn get_bit<A: BuilderArena>(
    arena: &mut A,
    place: StructPlace,
    index: usize,
    mask: Option<bool>,
) -> Result<bool, Fault> {
    let builder = struct_builder(arena, place)?;
    Ok(match mask {
        Some(mask) => builder.get_bool_field_mask(index, mask),
        None => builder.get_bool_field(index),
    })
}

/// Writes a bit of a struct, with a mask if there is one.
fn set_bit<A: BuilderArena>(
    arena: &mut A,
    place: StructPlace,
    index: usize,
    value: bool,
    mask: Option<bool>,
) -> Result<(), Fault> {
    let mut builder = struct_builder(arena, place)?;
    match mask {
        Some(mask) => builder.set_bool_field_mask(index, value, mask),
        None => builder.set_bool_field(index, value),
    }
    Ok(())
}
