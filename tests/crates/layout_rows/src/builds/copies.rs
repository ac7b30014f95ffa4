//! Calls that copy from another message.

use super::call::Copying;
use super::place::{pointer_builder, struct_builder, Place};
use crate::calls::Values;
use crate::elements::{struct_at, Reader};
use crate::output::Output;
use crate::parse::{self, Fault};
use capnp_proved::capnp_arena::arena::{BuilderArena, ReaderArena, ReaderArenaImpl, SegmentArray};
use capnp_proved::capnp_readers::readers::{PointerPlace, PointerReader};
use capnp_proved::capnp_words::read_limiter::ReadLimiter;
use capnp_proved::capnp_words::wire_pointer::ElementSize;

/// Copies from another message to a pointer, or over the content of a struct, and adds the outcome.
pub fn copy<A: BuilderArena>(
    arena: &mut A,
    place: Place,
    (copying, values): (Copying, &Values<'_>),
    out: &mut Output,
) -> Result<(), Fault> {
    let source = values.source;
    let segments = source.parse_segments()?;
    let slices = parse::slices(&segments);
    let array = SegmentArray::new(&slices).ok_or(Fault::Unfit)?;
    let message = ReaderArenaImpl::new(array, source.options);
    copy_from(arena, place, (copying, values), &message, out)
}

/// Copies from that message.
fn copy_from<A: BuilderArena, B: ReaderArena>(
    arena: &mut A,
    place: Place,
    (copying, values): (Copying, &Values<'_>),
    message: &B,
    out: &mut Output,
) -> Result<(), Fault> {
    let mut limiter = ReadLimiter::new(values.source.options.traversal_limit_in_words);
    match read_original(message, copying, values, &mut limiter) {
        Ok(original) => {
            let copied = copy_to_place(arena, place, original, values.flag, &mut limiter);
            push_outcome(copied, &limiter, out)
        }
        Err(Fault::Refused(kind)) => {
            out.push_text("source:");
            out.push(kind);
            Ok(())
        }
        Err(fault) => Err(fault),
    }
}

/// Adds the outcome of a copy, and what the limiter then has.
fn push_outcome(
    copied: Result<(), Fault>,
    limiter: &ReadLimiter,
    out: &mut Output,
) -> Result<(), Fault> {
    match copied {
        Ok(()) => out.push_text("ok"),
        Err(Fault::Refused(kind)) => out.push(kind),
        Err(fault) => return Err(fault),
    }
    out.push_text("/");
    out.push_words_left(limiter.left());
    out.push_slashed(limiter.followed());
    Ok(())
}

/// What to copy.
fn read_original<'a, B: ReaderArena>(
    message: &'a B,
    copying: Copying,
    values: &Values<'_>,
    limiter: &mut ReadLimiter,
) -> Result<Reader<'a, B>, Fault> {
    let root = PointerReader::get_root_from_arena(message, limiter)?;
    match copying {
        Copying::Value => Ok(Reader::Pointer(root)),
        Copying::Struct => Ok(Reader::Struct(root.get_struct(limiter, None)?)),
        Copying::List => Ok(Reader::List(root.get_list(limiter, values.size, None)?)),
        Copying::Element => read_struct_element(root, values.count, limiter),
        Copying::Section => {
            let found = root.get_struct(limiter, None)?;
            Ok(Reader::List(found.get_pointer_section_as_list()))
        }
    }
}

/// An element of the list that a pointer leads to, as a struct.
fn read_struct_element<'a, B: ReaderArena>(
    root: PointerReader<'a, B>,
    index: u32,
    limiter: &mut ReadLimiter,
) -> Result<Reader<'a, B>, Fault> {
    let list = root.get_list(limiter, ElementSize::InlineComposite, None)?;
    Ok(Reader::Struct(struct_at(&list, index)?))
}

/// Copies to a place.
fn copy_to_place<A: BuilderArena, B: ReaderArena>(
    arena: &mut A,
    place: Place,
    original: Reader<'_, B>,
    canonical: bool,
    limiter: &mut ReadLimiter,
) -> Result<(), Fault> {
    match (place, original) {
        (Place::Pointer(place), original) => {
            copy_to_pointer(arena, place, original, canonical, limiter)
        }
        (Place::Struct(place), Reader::Struct(value)) => {
            struct_builder(arena, place)?.copy_content_from(&value, limiter)?;
            Ok(())
        }
        _ => Err(Fault::Unfit),
    }
}

/// Copies to a pointer.
fn copy_to_pointer<A: BuilderArena, B: ReaderArena>(
    arena: &mut A,
    place: PointerPlace,
    original: Reader<'_, B>,
    canonical: bool,
    limiter: &mut ReadLimiter,
) -> Result<(), Fault> {
    let mut to = pointer_builder(arena, place)?;
    match original {
        Reader::Pointer(value) => to.copy_from(value, limiter, canonical)?,
        Reader::Struct(value) => to.set_struct(&value, limiter, canonical)?,
        Reader::List(value) => to.set_list(&value, limiter, canonical)?,
    }
    Ok(())
}
