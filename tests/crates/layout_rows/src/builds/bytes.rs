//! Calls on a text or on data that a pointer leads to.

use super::call::{Blob, BlobCall};
use super::place::pointer_builder;
use super::pointers::{default_bytes, LIST_LIMIT};
use crate::calls::Values;
use crate::output::Output;
use crate::parse::{self, Fault};
use capnp_proved::capnp_arena::arena::BuilderArena;
use capnp_proved::capnp_readers::readers::PointerPlace;

/// Makes a call on a text or on data, and adds its answer. The bytes among the call's arguments may
/// be a default.
pub fn make_call<A: BuilderArena>(
    arena: &mut A,
    place: PointerPlace,
    (blob, call, values): (Blob, BlobCall, &Values<'_>),
    out: &mut Output,
) -> Result<(), Fault> {
    let bytes = parse::bytes(values.hex.unwrap_or("-"))?;
    let default = default_bytes(values, &bytes)?;
    match call {
        BlobCall::Init => init_blob(arena, place, (blob, values.count), &bytes, out),
        BlobCall::Set => set_blob(arena, place, blob, &bytes, out),
        BlobCall::Find => push_blob_place(arena, place, blob, default, out),
        BlobCall::Get => {
            out.push_hex_or_dash(get_bytes(arena, place, blob, default)?);
            Ok(())
        }
        BlobCall::Write => write_byte(get_bytes(arena, place, blob, default)?, values, out),
    }
}

/// Makes `count` bytes, and writes the first of them.
fn init_blob<A: BuilderArena>(
    arena: &mut A,
    place: PointerPlace,
    (blob, count): (Blob, u32),
    first: &[u8],
    out: &mut Output,
) -> Result<(), Fault> {
    if first.len() > count as usize {
        return Err(Fault::Unfit);
    }
    let bytes = init_bytes(arena, place, blob, count)?;
    bytes[..first.len()].copy_from_slice(first);
    out.push(bytes.len());
    Ok(())
}

/// The bytes of a text or of data that is made, for writing.
fn init_bytes<A: BuilderArena>(
    arena: &mut A,
    place: PointerPlace,
    blob: Blob,
    count: u32,
) -> Result<&mut [u8], Fault> {
    let pointer = pointer_builder(arena, place)?;
    match blob {
        Blob::Text if count < LIST_LIMIT - 1 => Ok(pointer.init_text(count)?),
        Blob::Data if count < LIST_LIMIT => Ok(pointer.init_data(count)?),
        _ => Err(Fault::Unfit),
    }
}

/// Makes a text or data of given bytes.
fn set_blob<A: BuilderArena>(
    arena: &mut A,
    place: PointerPlace,
    blob: Blob,
    bytes: &[u8],
    out: &mut Output,
) -> Result<(), Fault> {
    let mut pointer = pointer_builder(arena, place)?;
    let limit = LIST_LIMIT as usize;
    match blob {
        Blob::Text if bytes.len() < limit - 1 => pointer.set_text(bytes)?,
        Blob::Data if bytes.len() < limit => pointer.set_data(bytes)?,
        _ => return Err(Fault::Unfit),
    }
    out.push_text("ok");
    Ok(())
}

/// Adds where a text or data is.
fn push_blob_place<A: BuilderArena>(
    arena: &mut A,
    place: PointerPlace,
    blob: Blob,
    default: Option<&[u8]>,
    out: &mut Output,
) -> Result<(), Fault> {
    let mut pointer = pointer_builder(arena, place)?;
    let found = match blob {
        Blob::Text => pointer.get_text_place(default)?,
        Blob::Data => pointer.get_data_place(default)?,
    };
    out.push(found.segment);
    out.push_slashed(found.start);
    out.push_slashed(found.length);
    Ok(())
}

/// The bytes of a text or of data, for writing.
fn get_bytes<'a, A: BuilderArena>(
    arena: &'a mut A,
    place: PointerPlace,
    blob: Blob,
    default: Option<&[u8]>,
) -> Result<&'a mut [u8], Fault> {
    let pointer = pointer_builder(arena, place)?;
    match blob {
        Blob::Text => Ok(pointer.get_text(default)?),
        Blob::Data => Ok(pointer.get_data(default)?),
    }
}

/// Writes one of these bytes.
fn write_byte(bytes: &mut [u8], values: &Values<'_>, out: &mut Output) -> Result<(), Fault> {
    *bytes.get_mut(values.index).ok_or(Fault::Unfit)? = values.byte;
    out.push_text("ok");
    Ok(())
}
