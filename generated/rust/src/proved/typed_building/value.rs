//! The fields of a struct of a message being built.

use crate::proved::capnp_allocation::making;
use crate::proved::capnp_arena_traits::arena::BuilderArena;
use crate::proved::capnp_builders::fields;
pub use crate::proved::capnp_builders::fields::{
    init_list, init_root, init_struct, init_struct_list, set_bool, set_data, set_number, set_text,
};
use crate::proved::capnp_in_place::initializing;
use crate::proved::capnp_readers::readers::{ListPlace, StructPlace};
use crate::proved::capnp_words::error::ErrorKind;
use crate::proved::capnp_words::mask::Mask;
use crate::proved::capnp_words::primitive::Primitive;
use crate::proved::capnp_words::wire_pointer::ElementSize;
use crate::proved::capnp_words::zero::Zero;
use crate::proved::typed_building::tag::UnionTag;

/// Writes the number at `offset` of a struct's data, counted in numbers of type `T`, of a field
/// whose default value is `default`: stores the exclusive or of `value` and the default.
/// Preconditions: `place` is inside the message and aligned; the field at `offset` is inside the
/// data section.
///
/// # Preconditions
///
/// ```text
/// requires aligned { IsAligned place }
/// requires inside { IsStructPlace (A.view arena.old).words place }
/// requires field { IsInside place.bits (8 * T.BYTES) offset }
/// ```
#[inline]
pub fn set_number_or<A: BuilderArena, T: Primitive + Zero + Mask>(
    arena: &mut A,
    place: StructPlace,
    offset: usize,
    value: T,
    default: <T as Mask>::T,
) {
    fields::set_number(arena, place, offset, T::mask(value, default));
}

/// Writes bit `offset` of a struct's data, of a field whose default value is `true`: stores the
/// opposite of `value`. Preconditions: `place` is inside the message; bit `offset` is inside the
/// data section.
///
/// # Preconditions
///
/// ```text
/// requires inside { IsStructPlace (A.view arena.old).words place }
/// requires field { offset < place.bits }
/// ```
#[inline]
pub fn set_bool_default_true<A: BuilderArena>(
    arena: &mut A,
    place: StructPlace,
    offset: usize,
    value: bool,
) {
    fields::set_bool(arena, place, offset, !value);
}

/// Writes the tag of a union: sets a member without a value. Preconditions: `place` is inside the
/// message and aligned; `tag` is inside the data section.
///
/// # Preconditions
///
/// ```text
/// requires aligned { IsAligned place }
/// requires inside { IsStructPlace (A.view arena.old).words place }
/// requires tag { IsInside place.bits 16 tag.offset }
/// ```
#[inline]
pub fn set_tag<A: BuilderArena>(arena: &mut A, place: StructPlace, tag: UnionTag) {
    fields::set_number(arena, place, tag.offset, tag.number);
}

/// Sets the member of a union that is a number: writes its tag, and then the number at `offset`,
/// counted in numbers of type `T`. Preconditions: `place` is inside the message and aligned; `tag`
/// and the field at `offset` are inside the data section.
///
/// # Preconditions
///
/// ```text
/// requires aligned { IsAligned place }
/// requires inside { IsStructPlace (A.view arena.old).words place }
/// requires tag { IsInside place.bits 16 tag.offset }
/// requires field { IsInside place.bits (8 * T.BYTES) offset }
/// ```
#[inline]
pub fn set_number_member<A: BuilderArena, T: Primitive + Zero>(
    arena: &mut A,
    place: StructPlace,
    tag: UnionTag,
    offset: usize,
    value: T,
) {
    set_tag(arena, place, tag);
    fields::set_number(arena, place, offset, value);
}

/// Sets the member of a union that is a number with a default value, like `set_number_member` and
/// `set_number_or`. Preconditions: `place` is inside the message and aligned; `tag` and the field
/// at `offset` are inside the data section.
///
/// # Preconditions
///
/// ```text
/// requires aligned { IsAligned place }
/// requires inside { IsStructPlace (A.view arena.old).words place }
/// requires tag { IsInside place.bits 16 tag.offset }
/// requires field { IsInside place.bits (8 * T.BYTES) offset }
/// ```
#[inline]
pub fn set_number_or_member<A: BuilderArena, T: Primitive + Zero + Mask>(
    arena: &mut A,
    place: StructPlace,
    tag: UnionTag,
    offset: usize,
    value: T,
    default: <T as Mask>::T,
) {
    set_tag(arena, place, tag);
    set_number_or(arena, place, offset, value, default);
}

/// Sets the member of a union that is a bit: writes its tag, and then bit `offset`. Preconditions:
/// `place` is inside the message and aligned; `tag` and bit `offset` are inside the data section.
///
/// # Preconditions
///
/// ```text
/// requires aligned { IsAligned place }
/// requires inside { IsStructPlace (A.view arena.old).words place }
/// requires tag { IsInside place.bits 16 tag.offset }
/// requires field { offset < place.bits }
/// ```
#[inline]
pub fn set_bool_member<A: BuilderArena>(
    arena: &mut A,
    place: StructPlace,
    tag: UnionTag,
    offset: usize,
    value: bool,
) {
    set_tag(arena, place, tag);
    fields::set_bool(arena, place, offset, value);
}

/// Sets the member of a union that is a bit whose default value is `true`, like `set_bool_member`
/// and `set_bool_default_true`. Preconditions: `place` is inside the message and aligned; `tag` and
/// bit `offset` are inside the data section.
///
/// # Preconditions
///
/// ```text
/// requires aligned { IsAligned place }
/// requires inside { IsStructPlace (A.view arena.old).words place }
/// requires tag { IsInside place.bits 16 tag.offset }
/// requires field { offset < place.bits }
/// ```
#[inline]
pub fn set_bool_default_true_member<A: BuilderArena>(
    arena: &mut A,
    place: StructPlace,
    tag: UnionTag,
    offset: usize,
    value: bool,
) {
    set_tag(arena, place, tag);
    set_bool_default_true(arena, place, offset, value);
}

/// Sets the member of a union that is a text: writes its tag, and makes pointer `index` lead to a
/// new text, the bytes of `text`, followed by a zero byte. Preconditions: `place` is inside the
/// message and aligned; `tag` is inside the data section; `index` is below `place.pointers`; `text`
/// has fewer than 2^29 - 1 bytes.
///
/// Refusals, if no segment has room: `AllocationFailed` if memory runs out;
/// `MessageTooLarge(usize::MAX)` if the message already has 4,294,967,295 segments.
/// After a refusal the tag is written, and the pointer is null.
///
/// # Preconditions
///
/// ```text
/// requires aligned { IsAligned place }
/// requires inside { IsStructPlace (A.view arena.old).words place }
/// requires tag { IsInside place.bits 16 tag.offset }
/// requires field { index < place.pointers }
/// requires few { length text.now + 1 < 2 ^ 29 }
/// ```
#[inline]
pub fn set_text_member<A: BuilderArena>(
    arena: &mut A,
    place: StructPlace,
    tag: UnionTag,
    index: usize,
    text: &[u8],
) -> Result<(), ErrorKind> {
    set_tag(arena, place, tag);
    fields::set_text(arena, place, index, text)
}

/// Sets the member of a union that is data: writes its tag, and makes pointer `index` lead to new
/// data, the bytes of `contents`. Preconditions: `place` is inside the message and aligned; `tag`
/// is inside the data section; `index` is below `place.pointers`; `contents` has fewer than 2^29
/// bytes.
///
/// Refusals, if no segment has room: `AllocationFailed` if memory runs out;
/// `MessageTooLarge(usize::MAX)` if the message already has 4,294,967,295 segments.
/// After a refusal the tag is written, and the pointer is null.
///
/// # Preconditions
///
/// ```text
/// requires aligned { IsAligned place }
/// requires inside { IsStructPlace (A.view arena.old).words place }
/// requires tag { IsInside place.bits 16 tag.offset }
/// requires field { index < place.pointers }
/// requires few { length contents.now < 2 ^ 29 }
/// ```
#[inline]
pub fn set_data_member<A: BuilderArena>(
    arena: &mut A,
    place: StructPlace,
    tag: UnionTag,
    index: usize,
    contents: &[u8],
) -> Result<(), ErrorKind> {
    set_tag(arena, place, tag);
    fields::set_data(arena, place, index, contents)
}

/// Sets the member of a union that is a list of elements that aren't structs: writes its tag, and
/// makes pointer `index` lead to a new list of `count` elements, all zero or null, whose place it
/// returns. Preconditions: `place` is inside the message and aligned; `tag` is inside the data
/// section; `index` is below `place.pointers`; `size` isn't `InlineComposite`; `count` is below
/// 2^29.
///
/// Refusals, if no segment has room: `AllocationFailed` if memory runs out;
/// `MessageTooLarge(usize::MAX)` if the message already has 4,294,967,295 segments.
/// After a refusal the tag is written, and the pointer is null.
///
/// # Preconditions
///
/// ```text
/// requires aligned { IsAligned place }
/// requires inside { IsStructPlace (A.view arena.old).words place }
/// requires tag { IsInside place.bits 16 tag.offset }
/// requires field { index < place.pointers }
/// requires few { count < 2 ^ 29 }
/// requires plain { size_number size ≤ 6 }
/// ```
#[inline]
pub fn init_list_member<A: BuilderArena>(
    arena: &mut A,
    place: StructPlace,
    tag: UnionTag,
    index: usize,
    size: ElementSize,
    count: u32,
) -> Result<ListPlace, ErrorKind> {
    set_tag(arena, place, tag);
    fields::init_list(arena, place, index, size, count)
}

/// Makes a pointer of a struct null, and zeroes what it held. Preconditions: `place` is inside the
/// message; `index` is below `place.pointers`.
///
/// # Preconditions
///
/// ```text
/// requires inside { IsStructPlace (A.view arena.old).words place }
/// requires field { index < place.pointers }
/// ```
#[inline]
pub fn clear<A: BuilderArena>(arena: &mut A, place: StructPlace, index: usize) {
    let at = place.pointers_at + index as u32;
    making::clear(arena, place.segment, at);
}

/// Makes a pointer of a struct the capability with index `capability` in the message's capability
/// table, and zeroes what it held. Preconditions: `place` is inside the message; `index` is below
/// `place.pointers`.
///
/// # Preconditions
///
/// ```text
/// requires inside { IsStructPlace (A.view arena.old).words place }
/// requires field { index < place.pointers }
/// ```
#[inline]
pub fn set_capability<A: BuilderArena>(
    arena: &mut A,
    place: StructPlace,
    index: usize,
    capability: u32,
) {
    let at = place.pointers_at + index as u32;
    initializing::set_capability(arena, place.segment, at, capability);
}

/// Sets the member of a union that is a capability: writes its tag, and makes pointer `index` the
/// capability with index `capability`. Zeroes what the pointer held. Preconditions: `place` is
/// inside the message and aligned; `tag` is inside the data section; `index` is below
/// `place.pointers`.
///
/// # Preconditions
///
/// ```text
/// requires aligned { IsAligned place }
/// requires inside { IsStructPlace (A.view arena.old).words place }
/// requires tag { IsInside place.bits 16 tag.offset }
/// requires field { index < place.pointers }
/// ```
#[inline]
pub fn set_capability_member<A: BuilderArena>(
    arena: &mut A,
    place: StructPlace,
    tag: UnionTag,
    index: usize,
    capability: u32,
) {
    set_tag(arena, place, tag);
    set_capability(arena, place, index, capability);
}
