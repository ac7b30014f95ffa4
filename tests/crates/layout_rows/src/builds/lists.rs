//! Calls on a list.

use super::call::{Access, ListCall};
use super::numbers::{access_number, get_element, set_element};
use super::place::{list_builder, Place};
use crate::calls::Values;
use crate::output::Output;
use crate::parse::{self, Fault};
use crate::types::ElementType;
use capnp_proved::capnp_arena::arena::BuilderArena;
use capnp_proved::capnp_readers::readers::{ListPlace, PointerPlace};
use capnp_proved::capnp_words::wire_pointer::ElementSize;

/// Makes a call on a list and adds its answer.
pub fn make_call<A: BuilderArena>(
    arena: &mut A,
    place: ListPlace,
    (call, values): (ListCall, &Values<'_>),
    out: &mut Output,
) -> Result<Option<Place>, Fault> {
    match call {
        ListCall::Struct => get_struct_element(arena, place, values.count),
        ListCall::Pointer => get_pointer_element(arena, place, values.count),
        ListCall::Element(access) => {
            access_element(arena, place, access, values, out)?;
            Ok(None)
        }
    }
}

/// An element as a struct.
fn get_struct_element<A: BuilderArena>(
    arena: &mut A,
    place: ListPlace,
    index: u32,
) -> Result<Option<Place>, Fault> {
    let builder = list_builder(arena, place)?;
    if index >= place.count || place.size == ElementSize::Bit {
        return Err(Fault::Unfit);
    }
    Ok(Some(Place::Struct(builder.get_struct_element(index).place)))
}

/// The pointer of an element.
fn get_pointer_element<A: BuilderArena>(
    arena: &mut A,
    place: ListPlace,
    index: u32,
) -> Result<Option<Place>, Fault> {
    let builder = list_builder(arena, place)?;
    let holds_pointer = match place.size {
        ElementSize::Pointer => true,
        ElementSize::InlineComposite => place.struct_size.pointers > 0,
        _ => false,
    };
    if index >= place.count || !holds_pointer {
        return Err(Fault::Unfit);
    }
    let pointer = builder.get_pointer_element(index);
    Ok(Some(Place::Pointer(PointerPlace {
        segment: pointer.segment,
        word: pointer.at,
    })))
}

/// Adds an element that is neither a struct nor a pointer, or writes it.
fn access_element<A: BuilderArena>(
    arena: &mut A,
    place: ListPlace,
    access: Access,
    values: &Values<'_>,
    out: &mut Output,
) -> Result<(), Fault> {
    let index = values.count;
    match (values.element, access) {
        (ElementType::Number(of), access) => {
            return access_number(arena, Place::List(place), (of, access), values, out);
        }
        (ElementType::Void, Access::Get) => {
            let () = get_element(arena, place, index)?;
            out.push_text("-");
        }
        (ElementType::Bool, Access::Get) => out.push_flag(get_element(arena, place, index)?),
        (of, Access::Set) => {
            match of {
                ElementType::Bool => set_bit(arena, place, values)?,
                _ => set_element(arena, place, index, ())?,
            }
            out.push_text("ok");
        }
    }
    Ok(())
}

/// Writes an element that is a bit.
fn set_bit<A: BuilderArena>(
    arena: &mut A,
    place: ListPlace,
    values: &Values<'_>,
) -> Result<(), Fault> {
    set_element(arena, place, values.count, parse::flag(values.digits)?)
}
