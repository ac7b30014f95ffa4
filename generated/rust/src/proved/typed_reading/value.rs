//! The root of a message, and the fields of a struct that is read.

use crate::proved::capnp_arena_traits::arena::ReaderArena;
use crate::proved::capnp_pointers::source::Source;
use crate::proved::capnp_readers::readers::{PointerReader, StructReader};
use crate::proved::capnp_words::error::ErrorKind;
use crate::proved::capnp_words::mask::Mask;
use crate::proved::capnp_words::primitive::Primitive;
use crate::proved::capnp_words::read_limiter::ReadLimiter;
use crate::proved::capnp_words::zero::Zero;

/// Returns the struct that the root of a message is; a struct without sections if the root pointer
/// is null. Charges one word for the root pointer, and the struct's own words.
///
/// Refuses like `PointerReader::get_root_from_arena` and `PointerReader::get_struct`. What was
/// charged before a refusal stays charged.
#[inline]
pub fn root<'a, A: ReaderArena>(
    arena: &'a A,
    lim: &mut ReadLimiter,
) -> Result<StructReader<'a, A>, ErrorKind> {
    match PointerReader::get_root_from_arena(arena, lim) {
        Ok(root) => root.get_struct(lim, None),
        Err(kind) => Err(kind),
    }
}

// Returns the struct without its pointers: what they lead to may be broken.
#[inline(always)]
fn data_of<'a, A: ReaderArena>(reader: &StructReader<'a, A>) -> StructReader<'a, A> {
    StructReader {
        source: reader.source,
        content: reader.content,
        byte: reader.byte,
        bits: reader.bits,
        pointers: reader.pointers,
        pointer_count: 0,
        nesting_limit: reader.nesting_limit,
    }
}

/// Returns the number at `offset` of a struct's data, which is counted in numbers of type `T`.
/// Returns zero if the number isn't wholly inside the data.
#[inline]
pub fn get_number<A: ReaderArena, T: Primitive + Zero>(
    reader: &StructReader<'_, A>,
    offset: usize,
) -> T {
    data_of(reader).get_data_field(offset)
}

/// Returns the number at `offset` of a struct's data, like `get_number`, of a field whose default
/// value is `default`: the exclusive or of what is stored and the default.
#[inline]
pub fn get_number_or<A: ReaderArena, T: Primitive + Zero + Mask>(
    reader: &StructReader<'_, A>,
    offset: usize,
    default: <T as Mask>::T,
) -> T {
    data_of(reader).get_data_field_mask(offset, default)
}

/// Returns bit `offset` of a struct's data; `false` if the data ends before it.
#[inline]
pub fn get_bool<A: ReaderArena>(reader: &StructReader<'_, A>, offset: usize) -> bool {
    data_of(reader).get_bool_field(offset)
}

/// Returns bit `offset` of a struct's data, like `get_bool`, of a field whose default value is
/// `default`: the exclusive or of what is stored and the default.
#[inline]
pub fn get_bool_or<A: ReaderArena>(
    reader: &StructReader<'_, A>,
    offset: usize,
    default: bool,
) -> bool {
    data_of(reader).get_bool_field_mask(offset, default)
}

/// Returns whether a pointer of a struct is null, or the struct has no such pointer.
#[inline]
pub fn is_null<A: ReaderArena>(reader: &StructReader<'_, A>, index: usize) -> bool {
    reader.is_pointer_field_null(index)
}

/// Returns whether a struct has a pointer that isn't null.
#[inline]
pub fn has<A: ReaderArena>(reader: &StructReader<'_, A>, index: usize) -> bool {
    !is_null(reader, index)
}

/// Returns a pointer of a struct, which can lead to anything; a null pointer that isn't in any
/// message if the struct has no such pointer. Charges nothing.
#[inline]
pub fn get_pointer<'a, A: ReaderArena>(
    reader: &StructReader<'a, A>,
    index: usize,
) -> PointerReader<'a, A> {
    reader.get_pointer_field(index)
}

/// Returns the bytes of the text that a pointer of a struct leads to, without the zero byte at its
/// end; no bytes if the pointer is null.
///
/// Refuses like `PointerReader::get_text`.
#[inline(always)]
pub fn get_text<'a, A: ReaderArena>(
    reader: &StructReader<'a, A>,
    index: usize,
    lim: &mut ReadLimiter,
) -> Result<&'a [u8], ErrorKind> {
    reader.get_pointer_field(index).get_text(lim, None)
}

/// Returns the bytes of the text that a pointer of a struct leads to, like `get_text`; the bytes of
/// `default` if the pointer is null.
#[inline]
pub fn get_text_or<'a, A: ReaderArena>(
    reader: &StructReader<'a, A>,
    index: usize,
    default: &'a [u8],
    lim: &mut ReadLimiter,
) -> Result<&'a [u8], ErrorKind> {
    if is_null(reader, index) {
        return Ok(default);
    }
    get_text(reader, index, lim)
}

/// Returns the bytes of the data that a pointer of a struct leads to; no bytes if the pointer is
/// null.
///
/// Refuses like `PointerReader::get_data`.
#[inline]
pub fn get_data<'a, A: ReaderArena>(
    reader: &StructReader<'a, A>,
    index: usize,
    lim: &mut ReadLimiter,
) -> Result<&'a [u8], ErrorKind> {
    reader.get_pointer_field(index).get_data(lim, None)
}

/// Returns the bytes of the data that a pointer of a struct leads to, like `get_data`; the bytes of
/// `default` if the pointer is null.
#[inline]
pub fn get_data_or<'a, A: ReaderArena>(
    reader: &StructReader<'a, A>,
    index: usize,
    default: &'a [u8],
    lim: &mut ReadLimiter,
) -> Result<&'a [u8], ErrorKind> {
    if is_null(reader, index) {
        return Ok(default);
    }
    get_data(reader, index, lim)
}

/// Returns the struct that a pointer of a struct leads to; a struct without sections if the pointer
/// is null.
///
/// Refuses like `PointerReader::get_struct`.
#[inline(always)]
pub fn get_struct<'a, A: ReaderArena>(
    reader: &StructReader<'a, A>,
    index: usize,
    lim: &mut ReadLimiter,
) -> Result<StructReader<'a, A>, ErrorKind> {
    reader.get_pointer_field(index).get_struct(lim, None)
}

/// Returns the struct that a pointer of a struct leads to, like `get_struct`; that of `default`,
/// which is one segment with its pointer in the first word, if the pointer is null. Reading the
/// default charges nothing. Precondition: `default` has fewer than 2^32 words.
///
/// # Preconditions
///
/// ```text
/// requires { length default.now / 8 < 2 ^ 32 }
/// ```
#[inline]
pub fn get_struct_or<'a, A: ReaderArena>(
    reader: &StructReader<'a, A>,
    index: usize,
    default: &'a [u8],
    lim: &mut ReadLimiter,
) -> Result<StructReader<'a, A>, ErrorKind> {
    if is_null(reader, index) {
        return match PointerReader::from_default(default) {
            Ok(field) => field.get_struct(lim, None),
            Err(kind) => Err(kind),
        };
    }
    get_struct(reader, index, lim)
}

/// Returns the index, in the message's capability table, of the capability that a pointer of a
/// struct is. Charges nothing.
///
/// Refuses like `PointerReader::get_capability`.
#[inline]
pub fn get_capability<A: ReaderArena>(
    reader: &StructReader<'_, A>,
    index: usize,
) -> Result<u32, ErrorKind> {
    reader.get_pointer_field(index).get_capability()
}
