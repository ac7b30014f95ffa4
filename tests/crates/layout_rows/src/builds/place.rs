//! Places of a message being built: pointers, structs and lists, and whether they are in the
//! message.

use crate::output::Output;
use crate::parse::Fault;
use capnp_proved::capnp_arena::arena::BuilderArena;
use capnp_proved::capnp_builders::builders::{ListBuilder, PointerBuilder, StructBuilder};
use capnp_proved::capnp_readers::readers::{ListPlace, PointerPlace, StructPlace};
use capnp_proved::capnp_words::read_limiter::ReadLimiter;
use capnp_proved::capnp_words::wire_pointer::{data_bits_per_element, ElementSize};

/// A place of a message being built.
#[derive(Clone, Copy)]
pub enum Place {
    /// A pointer.
    Pointer(PointerPlace),
    /// A struct.
    Struct(StructPlace),
    /// A list.
    List(ListPlace),
}

impl Place {
    /// Adds the place to the answer.
    pub fn push_to(self, out: &mut Output) {
        match self {
            Place::Pointer(place) => {
                out.push(place.segment);
                out.push_slashed(place.word);
            }
            Place::Struct(place) => {
                out.push(place.segment);
                out.push_slashed(place.byte);
                out.push_slashed(place.bits);
                out.push_slashed(place.pointers_at);
                out.push_slashed(place.pointers);
            }
            Place::List(place) => {
                out.push(place.segment);
                out.push_slashed(place.byte);
                out.push_slashed(place.count);
                out.push_list_sizes(place.size, place.struct_size);
            }
        }
    }

    /// Adds what a reader of the place reads.
    pub fn push_contents<A: BuilderArena>(
        self,
        arena: &mut A,
        out: &mut Output,
    ) -> Result<(), Fault> {
        match self {
            Place::Pointer(place) => push_pointer(arena, place, out),
            Place::Struct(place) => push_struct(arena, place, out),
            Place::List(place) => push_list(arena, place, out),
        }
    }
}

/// Shows what a pointer reads as.
fn push_pointer<A: BuilderArena>(
    arena: &mut A,
    place: PointerPlace,
    out: &mut Output,
) -> Result<(), Fault> {
    let builder = pointer_builder(arena, place)?;
    let reader = builder.as_reader();
    out.push_flag(reader.is_null());
    out.push_text("/");
    let size = reader.total_size(&mut ReadLimiter::new(None))?;
    out.push(size.word_count);
    out.push_slashed(size.cap_count);
    Ok(())
}

/// Shows what a struct reads as.
fn push_struct<A: BuilderArena>(
    arena: &mut A,
    place: StructPlace,
    out: &mut Output,
) -> Result<(), Fault> {
    let builder = struct_builder(arena, place)?;
    let reader = builder.as_reader();
    out.push_hex_or_dash(reader.data_bytes());
    out.push_slashed(reader.pointer_count());
    Ok(())
}

/// Shows what a list reads as.
fn push_list<A: BuilderArena>(
    arena: &mut A,
    place: ListPlace,
    out: &mut Output,
) -> Result<(), Fault> {
    let builder = list_builder(arena, place)?;
    let reader = builder.as_reader();
    out.push(reader.len());
    out.push_list_sizes(reader.get_element_size(), reader.struct_size());
    Ok(())
}

/// The number of words of a segment, if it exists.
fn segment_length<A: BuilderArena>(arena: &A, id: u32) -> Option<u64> {
    let bytes = arena.get_segment(id).ok()?;
    Some((bytes.len() / 8) as u64)
}

/// Whether the message has the pointer's word.
pub fn has_pointer<A: BuilderArena>(arena: &A, place: PointerPlace) -> bool {
    segment_length(arena, place.segment).is_some_and(|words| u64::from(place.word) < words)
}

/// Whether both sections of a struct exist.
fn has_struct<A: BuilderArena>(arena: &A, place: StructPlace) -> bool {
    match (
        segment_length(arena, place.segment),
        place.byte.checked_add(bytes_for(place.bits)),
    ) {
        (Some(words), Some(end)) => {
            end <= 8 * words && u64::from(place.pointers_at) + u64::from(place.pointers) <= words
        }
        _ => false,
    }
}

/// The number of bytes that `bits` bits touch.
fn bytes_for(bits: u32) -> u64 {
    u64::from(bits).div_ceil(8)
}

/// Whether the numbers of a data section are at bytes that are a multiple of their size.
fn is_aligned(place: StructPlace) -> bool {
    let widest = u64::from(place.bits / 8).min(8);
    widest == 0 || 8 % widest == 0 && place.byte.is_multiple_of(widest)
}

/// Whether the elements of a list exist.
fn has_list<A: BuilderArena>(arena: &A, place: ListPlace) -> bool {
    let elements = words_of_elements(place.size, place.struct_size.total(), place.count);
    match (
        segment_length(arena, place.segment),
        (place.byte / 8).checked_add(elements),
    ) {
        (Some(words), Some(end)) => place.byte.is_multiple_of(8) && end <= words,
        _ => false,
    }
}

/// The number of words of `count` elements; `width` is that of a struct, in words.
fn words_of_elements(size: ElementSize, width: u32, count: u32) -> u64 {
    match size {
        ElementSize::InlineComposite => u64::from(count) * u64::from(width),
        ElementSize::Pointer => u64::from(count),
        size => (u64::from(count) * u64::from(data_bits_per_element(size))).div_ceil(64),
    }
}

/// Returns a builder of the pointer at `place`; `Unfit` if it isn't in the message.
pub fn pointer_builder<A: BuilderArena>(
    arena: &mut A,
    place: PointerPlace,
) -> Result<PointerBuilder<'_, A>, Fault> {
    if !has_pointer(&*arena, place) {
        return Err(Fault::Unfit);
    }
    Ok(PointerBuilder {
        arena,
        segment: place.segment,
        at: place.word,
    })
}

/// Returns a builder of the struct at `place`; `Unfit` if it isn't in the message, or isn't
/// aligned.
pub fn struct_builder<A: BuilderArena>(
    arena: &mut A,
    place: StructPlace,
) -> Result<StructBuilder<'_, A>, Fault> {
    if !has_struct(&*arena, place) || !is_aligned(place) {
        return Err(Fault::Unfit);
    }
    Ok(StructBuilder { arena, place })
}

/// Returns a builder of the list at `place`; `Unfit` if it isn't in the message.
pub fn list_builder<A: BuilderArena>(
    arena: &mut A,
    place: ListPlace,
) -> Result<ListBuilder<'_, A>, Fault> {
    if !has_list(&*arena, place) {
        return Err(Fault::Unfit);
    }
    Ok(ListBuilder { arena, place })
}
