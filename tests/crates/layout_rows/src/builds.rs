//! Calls on builders of a message, and what each returns.

mod bytes;
mod call;
mod copies;
mod lists;
mod numbers;
mod place;
mod pointers;
mod structs;

use self::call::{Call, Copying, MessageCall, FORMS};
use self::place::Place;
use crate::calls::{self, Values};
use crate::memory;
use crate::output::Output;
use crate::parse::{self, Fault};
use capnp_proved::capnp_arena::arena::{Allocator, BuilderArena, BuilderArenaImpl, ReaderArena};
use capnp_proved::capnp_readers::readers::{PointerPlace, StructPlace};

/// The place of the root pointer.
const ROOT: PointerPlace = PointerPlace {
    segment: 0,
    word: 0,
};

/// Makes `calls` in order. Adds to `out` the answer of each call, followed by `;`.
pub fn make_calls<A: Allocator>(
    arena: &mut BuilderArenaImpl<A>,
    calls: &[&str],
    out: &mut Output,
) -> Result<(), Fault> {
    let mut kept = vec![Place::Pointer(ROOT)];
    for text in calls {
        let made = make_call(arena, &kept, text, out);
        if let Some(place) = push_answer(made, out)? {
            kept.push(place);
        }
    }
    Ok(())
}

/// Adds the answer of a call that hasn't added it itself. Returns the place that the call returned,
/// if it did.
fn push_answer(
    made: Result<Option<Place>, Fault>,
    out: &mut Output,
) -> Result<Option<Place>, Fault> {
    match made {
        Ok(Some(place)) => place.push_to(out),
        Ok(None) => {}
        Err(Fault::Unfit) => out.push_text("none"),
        Err(Fault::Refused(kind)) => out.push(kind),
        Err(fault) => return Err(fault),
    }
    out.push_text(";");
    Ok(made.unwrap_or(None))
}

/// Makes a call and adds its answer to `out`. Returns the place that the call found or made, if
/// there is one; later calls can be made on it.
fn make_call<A: Allocator>(
    arena: &mut BuilderArenaImpl<A>,
    kept: &[Place],
    text: &str,
    out: &mut Output,
) -> Result<Option<Place>, Fault> {
    let (place, text) = split_place(kept, text);
    let (call, values) = calls::parse_one_of(&FORMS, text)?;
    if values.is_unfit {
        return Err(Fault::Unfit);
    }
    match (call, place) {
        (Call::Message(call), _) => call_on_message(arena, call, &values, out),
        (call, Some(place)) => call_on_place(arena, place, (call, &values), out),
        _ => Err(Fault::Unfit),
    }
}

/// Makes a call on what is at a place, and adds its answer.
fn call_on_place<A: Allocator>(
    arena: &mut BuilderArenaImpl<A>,
    place: Place,
    (call, values): (Call, &Values<'_>),
    out: &mut Output,
) -> Result<Option<Place>, Fault> {
    if matches!(call, Call::Read) {
        place.push_contents(arena, out)?;
        return Ok(None);
    }
    match place {
        Place::Pointer(place) => call_on_pointer(arena, place, (call, values), out),
        Place::Struct(place) => call_on_struct(arena, place, (call, values), out),
        Place::List(place) => match call {
            Call::List(call) => lists::make_call(arena, place, (call, values), out),
            _ => Err(Fault::Unfit),
        },
    }
}

/// Makes a call on the struct at a place, and adds its answer.
fn call_on_struct<A: Allocator>(
    arena: &mut BuilderArenaImpl<A>,
    place: StructPlace,
    (call, values): (Call, &Values<'_>),
    out: &mut Output,
) -> Result<Option<Place>, Fault> {
    match call {
        Call::Struct(call) => return structs::make_call(arena, place, (call, values), out),
        Call::Content => {
            let copying = (Copying::Struct, values);
            copies::copy(arena, Place::Struct(place), copying, out)?;
        }
        _ => return Err(Fault::Unfit),
    }
    Ok(None)
}

/// Makes a call on the pointer at a place, and adds its answer.
fn call_on_pointer<A: Allocator>(
    arena: &mut BuilderArenaImpl<A>,
    place: PointerPlace,
    (call, values): (Call, &Values<'_>),
    out: &mut Output,
) -> Result<Option<Place>, Fault> {
    match call {
        Call::Pointer(call) => return pointers::make_call(arena, place, (call, values), out),
        Call::Bytes(blob, call) => bytes::make_call(arena, place, (blob, call, values), out)?,
        Call::Copy(copying) => {
            copies::copy(arena, Place::Pointer(place), (copying, values), out)?;
        }
        _ => return Err(Fault::Unfit),
    }
    Ok(None)
}

/// Splits `text` into the place that a call is made on, and the call. A number before a point is
/// the number of the place in `kept`; without a number, the place is the last of `kept`. Returns
/// `None` for the place if `kept` doesn't have it.
fn split_place<'a>(kept: &[Place], text: &'a str) -> (Option<Place>, &'a str) {
    match text.split_once('.') {
        Some((number, call)) if parse::is_number(number) => {
            let number: Option<usize> = number.parse().ok();
            (number.and_then(|number| kept.get(number).copied()), call)
        }
        _ => (kept.last().copied(), text),
    }
}

/// Makes a call on the message itself.
fn call_on_message<A: Allocator>(
    arena: &mut BuilderArenaImpl<A>,
    call: MessageCall,
    values: &Values<'_>,
    out: &mut Output,
) -> Result<Option<Place>, Fault> {
    match call {
        MessageCall::Words => memory::push_words(&*arena, out),
        MessageCall::Len => out.push(arena.len()),
        MessageCall::Refused => out.push(arena.refused()),
        MessageCall::Size => out.push(arena.size_in_words()),
        MessageCall::Allocated => push_allocated(arena, values.count, out),
        MessageCall::WriteAllocated => {
            write_allocated(arena, values.count, (values.index, values.byte), out)?;
        }
        MessageCall::PointerAt => return pointer_at(arena, values),
    }
    Ok(None)
}

/// Returns the place of the pointer at a word of the message; `Unfit` if there is no such word.
fn pointer_at<A: BuilderArena>(arena: &A, values: &Values<'_>) -> Result<Option<Place>, Fault> {
    let place = PointerPlace {
        segment: values.count,
        word: values.word,
    };
    if place::has_pointer(arena, place) {
        Ok(Some(Place::Pointer(place)))
    } else {
        Err(Fault::Unfit)
    }
}

/// Adds the bytes of a segment that the arena lends for writing, or `absent` if it lends none.
fn push_allocated<A: BuilderArena>(arena: &mut A, segment: u32, out: &mut Output) {
    match arena.allocated_mut(segment) {
        Some(bytes) => out.push_hex_or_dash(bytes),
        None => out.push_text("absent"),
    }
}

/// If the arena lends a segment's bytes for writing, writes `byte` over byte `index` of them;
/// `Unfit` if there is no such byte. Adds `absent` if the arena lends none.
fn write_allocated<A: BuilderArena>(
    arena: &mut A,
    segment: u32,
    (index, byte): (usize, u8),
    out: &mut Output,
) -> Result<(), Fault> {
    match arena.allocated_mut(segment) {
        Some(bytes) => {
            *bytes.get_mut(index).ok_or(Fault::Unfit)? = byte;
            out.push_text("ok");
        }
        None => out.push_text("absent"),
    }
    Ok(())
}
