//! Calls on a pointer.

use super::call::{PointerCall, Verb, WordCall};
use super::place::{pointer_builder, Place};
use crate::calls::Values;
use crate::output::Output;
use crate::parse::{self, Fault};
use capnp_proved::capnp_arena::arena::BuilderArena;
use capnp_proved::capnp_builders::builders::PointerBuilder;
use capnp_proved::capnp_readers::readers::{ListPlace, PointerPlace, StructPlace};
use capnp_proved::capnp_words::error::ErrorKind;
use capnp_proved::capnp_words::wire_pointer::{ElementSize, StructSize};

/// Lists have fewer elements than this, and lists of structs fewer words.
pub const LIST_LIMIT: u32 = 0x2000_0000;

/// Makes a call on a pointer and adds its answer.
pub fn make_call<A: BuilderArena>(
    arena: &mut A,
    place: PointerPlace,
    (call, values): (PointerCall, &Values<'_>),
    out: &mut Output,
) -> Result<Option<Place>, Fault> {
    let mut pointer = pointer_builder(arena, place)?;
    let bytes = parse::bytes(values.hex.unwrap_or("-"))?;
    let default = default_bytes(values, &bytes)?;
    match call {
        PointerCall::Word(call) => call_on_word(pointer, call, values.count, out)?,
        PointerCall::PutDefault => {
            pointer.put_default(default)?;
            out.push_text("ok");
        }
        PointerCall::Struct(verb) => {
            return init_or_find_struct(pointer, verb, values.sections, default);
        }
        PointerCall::List(verb) => {
            return init_or_find_list(pointer, verb, values.size, values.count, default);
        }
        PointerCall::StructList(verb) => {
            return init_or_find_struct_list(pointer, verb, values.count, values.sections, default);
        }
    }
    Ok(None)
}

/// Returns the bytes among a call's arguments as a default, or `None` if the call has none; `Unfit`
/// if there are too many.
pub fn default_bytes<'a>(values: &Values<'_>, bytes: &'a [u8]) -> Result<Option<&'a [u8]>, Fault> {
    if bytes.len() / 8 > u32::MAX as usize {
        return Err(Fault::Unfit);
    }
    Ok(values.hex.map(|_| bytes))
}

/// Makes a call that reads or writes only the pointer's word, and adds its answer.
fn call_on_word<A: BuilderArena>(
    mut pointer: PointerBuilder<'_, A>,
    call: WordCall,
    index: u32,
    out: &mut Output,
) -> Result<(), Fault> {
    match call {
        WordCall::IsNull => out.push_flag(pointer.is_null()),
        WordCall::Clear => {
            pointer.clear();
            out.push_text("ok");
        }
        WordCall::SetCapability => {
            pointer.set_capability(index);
            out.push_text("ok");
        }
        WordCall::GetCapability => out.push(pointer.get_capability()?),
    }
    Ok(())
}

/// Makes a pointer lead to a new struct, or finds the struct that it leads to.
fn init_or_find_struct<A: BuilderArena>(
    mut pointer: PointerBuilder<'_, A>,
    verb: Verb,
    size: StructSize,
    default: Option<&[u8]>,
) -> Result<Option<Place>, Fault> {
    let place = match verb {
        Verb::Put => pointer.init_struct_place(size)?,
        Verb::Init => pointer.init_struct(size)?.place,
        verb => find_struct(pointer, verb, size, default)?,
    };
    Ok(Some(Place::Struct(place)))
}

/// Finds the struct that a pointer leads to.
fn find_struct<A: BuilderArena>(
    mut pointer: PointerBuilder<'_, A>,
    verb: Verb,
    size: StructSize,
    default: Option<&[u8]>,
) -> Result<StructPlace, ErrorKind> {
    match verb {
        Verb::Get => Ok(pointer.get_struct(size, default)?.place),
        _ => pointer.get_struct_place(size, default),
    }
}

/// Makes a pointer lead to a new list whose elements aren't structs, or finds the list that it
/// leads to.
fn init_or_find_list<A: BuilderArena>(
    mut pointer: PointerBuilder<'_, A>,
    verb: Verb,
    size: ElementSize,
    count: u32,
    default: Option<&[u8]>,
) -> Result<Option<Place>, Fault> {
    if size == ElementSize::InlineComposite || count >= LIST_LIMIT {
        return Err(Fault::Unfit);
    }
    let place = match verb {
        Verb::Put => pointer.init_list_place(size, count)?,
        Verb::Init => pointer.init_list(size, count)?.place,
        verb => find_list(pointer, verb, size, default)?,
    };
    Ok(Some(Place::List(place)))
}

/// Finds the list that a pointer leads to, of elements that aren't structs.
fn find_list<A: BuilderArena>(
    mut pointer: PointerBuilder<'_, A>,
    verb: Verb,
    size: ElementSize,
    default: Option<&[u8]>,
) -> Result<ListPlace, ErrorKind> {
    match verb {
        Verb::Get => Ok(pointer.get_list(size, default)?.place),
        _ => pointer.get_list_place(size, default),
    }
}

/// Makes a pointer lead to a new list of structs, or finds the list that it leads to.
fn init_or_find_struct_list<A: BuilderArena>(
    mut pointer: PointerBuilder<'_, A>,
    verb: Verb,
    count: u32,
    size: StructSize,
    default: Option<&[u8]>,
) -> Result<Option<Place>, Fault> {
    let words = u64::from(count) * u64::from(size.total());
    if count >= 2 * LIST_LIMIT || words >= u64::from(LIST_LIMIT) {
        return Err(Fault::Unfit);
    }
    let place = match verb {
        Verb::Put => pointer.init_struct_list_place(count, size)?,
        Verb::Init => pointer.init_struct_list(count, size)?.place,
        verb => find_struct_list(pointer, verb, size, default)?,
    };
    Ok(Some(Place::List(place)))
}

/// Finds the list of structs that a pointer leads to.
fn find_struct_list<A: BuilderArena>(
    mut pointer: PointerBuilder<'_, A>,
    verb: Verb,
    size: StructSize,
    default: Option<&[u8]>,
) -> Result<ListPlace, ErrorKind> {
    match verb {
        Verb::Get => Ok(pointer.get_struct_list(size, default)?.place),
        _ => pointer.get_struct_list_place(size, default),
    }
}
