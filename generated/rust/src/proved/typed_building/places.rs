//! Calls that make or open a struct or a list of structs, and return its place as the type that
//! generated code has for it.

use crate::proved::capnp_arena_traits::arena::BuilderArena;
use crate::proved::capnp_readers::readers::{ListPlace, StructPlace};
use crate::proved::capnp_words::error::ErrorKind;
use crate::proved::capnp_words::wire_pointer::StructSize;
use crate::proved::typed_building::tag::UnionTag;
use crate::proved::typed_building::{opening, value};

/// A type that generated code has for the place of a struct.
pub trait FromStructPlace {
    /// Returns the place as this type.
    fn from_place(place: StructPlace) -> Self;
}

/// A type that generated code has for the place of a list of structs.
pub trait FromListPlace {
    /// Returns the place as this type.
    fn from_place(place: ListPlace) -> Self;
}

/// Makes the root of a message a new struct, all zero, and returns its place, like
/// `value::init_root`. Precondition: word 0 of segment 0 is allocated.
///
/// # Preconditions
///
/// ```text
/// requires { IsPlace (A.view arena.old).words 0 0 }
/// ```
#[inline]
pub fn init_root<A: BuilderArena, B: FromStructPlace>(
    arena: &mut A,
    size: StructSize,
) -> Result<B, ErrorKind> {
    match value::init_root(arena, size) {
        Ok(inner) => Ok(B::from_place(inner)),
        Err(k) => Err(k),
    }
}

/// Makes pointer `index` lead to a new struct, all zero, and returns its place, like
/// `value::init_struct`. Preconditions: `place` is inside the message; `index` is below
/// `place.pointers`.
///
/// # Preconditions
///
/// ```text
/// requires inside { IsStructPlace (A.view arena.old).words place }
/// requires field { index < place.pointers }
/// ```
#[inline]
pub fn init_struct<A: BuilderArena, B: FromStructPlace>(
    arena: &mut A,
    place: StructPlace,
    index: usize,
    size: StructSize,
) -> Result<B, ErrorKind> {
    match value::init_struct(arena, place, index, size) {
        Ok(inner) => Ok(B::from_place(inner)),
        Err(k) => Err(k),
    }
}

/// Sets the member of a union that is a struct: writes its tag, and makes pointer `index` lead to a
/// new struct, all zero, whose place it returns. Preconditions: `place` is inside the message and
/// aligned; `tag` is inside the data section; `index` is below `place.pointers`.
///
/// Refusals, if no segment has room: `AllocationFailed` if memory runs out;
/// `MessageTooLarge(usize::MAX)` if the message already has 4,294,967,295 segments.
/// After a refusal the tag is written, and the pointer is null.
///
/// # Preconditions
///
/// ```text
/// requires aligned { IsAligned place }
/// requires inside { IsStructPlace (A.view arena.old).words place }
/// requires tag { IsInside place.bits 16 tag.offset }
/// requires field { index < place.pointers }
/// ```
#[inline]
pub fn init_struct_member<A: BuilderArena, B: FromStructPlace>(
    arena: &mut A,
    place: StructPlace,
    tag: UnionTag,
    index: usize,
    size: StructSize,
) -> Result<B, ErrorKind> {
    value::set_tag(arena, place, tag);
    init_struct(arena, place, index, size)
}

/// Makes pointer `index` lead to a new list of `count` structs, all zero, and returns its place,
/// like `value::init_struct_list`. Preconditions: `place` is inside the message; `index` is below
/// `place.pointers`; `count` is below 2^30; `count` structs of `size` have fewer than 2^29 words.
///
/// # Preconditions
///
/// ```text
/// requires inside { IsStructPlace (A.view arena.old).words place }
/// requires field { index < place.pointers }
/// requires few { count < 2 ^ 30 }
/// requires words { count * (size.data_words + size.pointers) < 2 ^ 29 }
/// ```
#[inline]
pub fn init_struct_list<A: BuilderArena, B: FromListPlace>(
    arena: &mut A,
    place: StructPlace,
    index: usize,
    count: u32,
    size: StructSize,
) -> Result<B, ErrorKind> {
    match value::init_struct_list(arena, place, index, count, size) {
        Ok(inner) => Ok(B::from_place(inner)),
        Err(k) => Err(k),
    }
}

/// Sets the member of a union that is a list of structs: writes its tag, and makes pointer `index`
/// lead to a new list of `count` structs, all zero, whose place it returns. Preconditions: `place`
/// is inside the message and aligned; `tag` is inside the data section; `index` is below
/// `place.pointers`; `count` is below 2^30; `count` structs of `size` have fewer than 2^29 words.
///
/// Refusals, if no segment has room: `AllocationFailed` if memory runs out;
/// `MessageTooLarge(usize::MAX)` if the message already has 4,294,967,295 segments.
/// After a refusal the tag is written, and the pointer is null.
///
/// # Preconditions
///
/// ```text
/// requires aligned { IsAligned place }
/// requires inside { IsStructPlace (A.view arena.old).words place }
/// requires tag { IsInside place.bits 16 tag.offset }
/// requires field { index < place.pointers }
/// requires few { count < 2 ^ 30 }
/// requires words { count * (size.data_words + size.pointers) < 2 ^ 29 }
/// ```
#[inline]
pub fn init_struct_list_member<A: BuilderArena, B: FromListPlace>(
    arena: &mut A,
    place: StructPlace,
    tag: UnionTag,
    index: usize,
    count: u32,
    size: StructSize,
) -> Result<B, ErrorKind> {
    value::set_tag(arena, place, tag);
    init_struct_list(arena, place, index, count, size)
}

/// Returns the struct that pointer `index` leads to, for writing, like `opening::get_struct`.
/// Preconditions: `place` is inside the message; `index` is below `place.pointers`.
///
/// # Preconditions
///
/// ```text
/// requires inside { IsStructPlace (A.view arena.old).words place }
/// requires field { index < place.pointers }
/// ```
#[inline]
pub fn get_struct<A: BuilderArena, B: FromStructPlace>(
    arena: &mut A,
    place: StructPlace,
    index: usize,
    size: StructSize,
) -> Result<B, ErrorKind> {
    match opening::get_struct(arena, place, index, size) {
        Ok(inner) => Ok(B::from_place(inner)),
        Err(k) => Err(k),
    }
}

/// Returns the list that pointer `index` leads to, for writing, as a list of structs, like
/// `opening::get_struct_list`. Preconditions: `place` is inside the message; `index` is below
/// `place.pointers`.
///
/// # Preconditions
///
/// ```text
/// requires inside { IsStructPlace (A.view arena.old).words place }
/// requires field { index < place.pointers }
/// ```
#[inline]
pub fn get_struct_list<A: BuilderArena, B: FromListPlace>(
    arena: &mut A,
    place: StructPlace,
    index: usize,
    size: StructSize,
) -> Result<B, ErrorKind> {
    match opening::get_struct_list(arena, place, index, size) {
        Ok(inner) => Ok(B::from_place(inner)),
        Err(k) => Err(k),
    }
}
