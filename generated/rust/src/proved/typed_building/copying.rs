//! Copies of values that were read, for pointers of a struct of a message being built.

use crate::proved::capnp_arena_traits::arena::{BuilderArena, ReaderArena};
use crate::proved::capnp_builders::builders::PointerBuilder;
use crate::proved::capnp_readers::readers::{ListReader, PointerReader, StructPlace, StructReader};
use crate::proved::capnp_words::error::ErrorKind;
use crate::proved::capnp_words::read_limiter::ReadLimiter;
use crate::proved::typed_building::tag::UnionTag;
use crate::proved::typed_building::value;

/// Copies the struct `from` to pointer `index`, with all words of its sections, and zeroes what the
/// pointer held. Charges `lim` what reading the values of the struct's pointers costs, and nothing
/// for the struct's own words. Preconditions: `place` is inside the message; `index` is below
/// `place.pointers`.
///
/// Refusals: the first refusal of reading the values of the struct's pointers;
/// `MessageTooLarge(n)` if the struct has n data words, and n is above 65535. If the copy doesn't
/// fit the pointer's segment, and no other segment has room for one of its objects:
/// `AllocationFailed` if memory runs out; `MessageTooLarge(n)` if n is above 536,870,911, where n
/// is the number of that object's words, plus one for a landing pad; `MessageTooLarge(usize::MAX)`
/// if the message already has 4,294,967,295 segments. After a refusal the pointer is null, the
/// words that were allocated are zero, and what was charged stays charged.
///
/// # Preconditions
///
/// ```text
/// requires inside { IsStructPlace (A.view arena.old).words place }
/// requires field { index < place.pointers }
/// ```
#[inline]
pub fn set_struct_from<A: BuilderArena, B: ReaderArena>(
    arena: &mut A,
    place: StructPlace,
    index: usize,
    from: &StructReader<'_, B>,
    lim: &mut ReadLimiter,
) -> Result<(), ErrorKind> {
    let at = place.pointers_at + index as u32;
    let mut pointer = PointerBuilder {
        arena,
        segment: place.segment,
        at,
    };
    pointer.set_struct(from, lim, false)
}

/// Copies the list `from` to pointer `index`, with all words of its elements, and zeroes what the
/// pointer held. Charges `lim` what reading the values of the list's pointers costs, and nothing
/// for the list's own words. Preconditions: `place` is inside the message; `index` is below
/// `place.pointers`.
///
/// Refusals: the first refusal of reading the values of the list's pointers;
/// `MessageTooLarge(usize::MAX)` if the list has more elements or words than a list pointer can
/// state, which a list that was read from a message never has. If the copy doesn't fit the
/// pointer's segment, and no other segment has room for one of its objects: `AllocationFailed` if
/// memory runs out; `MessageTooLarge(n)` if n is above 536,870,911, where n is the number of that
/// object's words, plus one for a landing pad; `MessageTooLarge(usize::MAX)` if the message already
/// has 4,294,967,295 segments. After a refusal the pointer is null, the words that were allocated
/// are zero, and what was charged stays charged.
///
/// # Preconditions
///
/// ```text
/// requires inside { IsStructPlace (A.view arena.old).words place }
/// requires field { index < place.pointers }
/// ```
#[inline]
pub fn set_list_from<A: BuilderArena, B: ReaderArena>(
    arena: &mut A,
    place: StructPlace,
    index: usize,
    from: &ListReader<'_, B>,
    lim: &mut ReadLimiter,
) -> Result<(), ErrorKind> {
    let at = place.pointers_at + index as u32;
    let mut pointer = PointerBuilder {
        arena,
        segment: place.segment,
        at,
    };
    pointer.set_list(from, lim, false)
}

/// Copies the value of the pointer of `from`, of any type, to pointer `index`, with all words of
/// its sections and elements. Zeroes what pointer `index` held. Charges `lim` what reading the
/// whole value costs. Preconditions: `place` is inside the message; `index` is below
/// `place.pointers`.
///
/// Refusals: the first refusal of reading the value. If the copy doesn't fit the pointer's segment,
/// and no other segment has room for one of its objects: `AllocationFailed` if memory runs out;
/// `MessageTooLarge(n)` if n is above 536,870,911, where n is the number of that object's words,
/// plus one for a landing pad; `MessageTooLarge(usize::MAX)` if the message already has
/// 4,294,967,295 segments. After a refusal the pointer is null, the words that were allocated are
/// zero, and what was charged stays charged.
///
/// # Preconditions
///
/// ```text
/// requires inside { IsStructPlace (A.view arena.old).words place }
/// requires field { index < place.pointers }
/// ```
#[inline]
pub fn set_pointer_from<A: BuilderArena, B: ReaderArena>(
    arena: &mut A,
    place: StructPlace,
    index: usize,
    from: PointerReader<'_, B>,
    lim: &mut ReadLimiter,
) -> Result<(), ErrorKind> {
    let at = place.pointers_at + index as u32;
    let mut pointer = PointerBuilder {
        arena,
        segment: place.segment,
        at,
    };
    pointer.copy_from(from, lim, false)
}

/// Sets the member of a union that is a struct: writes its tag, and then does what
/// `set_struct_from` does. Preconditions: `place` is inside the message and aligned; `tag` is
/// inside the data section; `index` is below `place.pointers`.
///
/// The refusals are those of `set_struct_from`. After a refusal the tag is written, and the pointer
/// is null.
///
/// # Preconditions
///
/// ```text
/// requires aligned { IsAligned place }
/// requires inside { IsStructPlace (A.view arena.old).words place }
/// requires tag { IsInside place.bits 16 tag.offset }
/// requires field { index < place.pointers }
/// ```
#[inline]
pub fn set_struct_from_member<A: BuilderArena, B: ReaderArena>(
    arena: &mut A,
    place: StructPlace,
    tag: UnionTag,
    index: usize,
    from: &StructReader<'_, B>,
    lim: &mut ReadLimiter,
) -> Result<(), ErrorKind> {
    value::set_tag(arena, place, tag);
    set_struct_from(arena, place, index, from, lim)
}

/// Sets the member of a union that is a list: writes its tag, and then does what `set_list_from`
/// does. Preconditions: `place` is inside the message and aligned; `tag` is inside the data
/// section; `index` is below `place.pointers`.
///
/// The refusals are those of `set_list_from`. After a refusal the tag is written, and the pointer
/// is null.
///
/// # Preconditions
///
/// ```text
/// requires aligned { IsAligned place }
/// requires inside { IsStructPlace (A.view arena.old).words place }
/// requires tag { IsInside place.bits 16 tag.offset }
/// requires field { index < place.pointers }
/// ```
#[inline]
pub fn set_list_from_member<A: BuilderArena, B: ReaderArena>(
    arena: &mut A,
    place: StructPlace,
    tag: UnionTag,
    index: usize,
    from: &ListReader<'_, B>,
    lim: &mut ReadLimiter,
) -> Result<(), ErrorKind> {
    value::set_tag(arena, place, tag);
    set_list_from(arena, place, index, from, lim)
}

/// Sets the member of a union that is any pointer: writes its tag, and then does what
/// `set_pointer_from` does. Preconditions: `place` is inside the message and aligned; `tag` is
/// inside the data section; `index` is below `place.pointers`.
///
/// The refusals are those of `set_pointer_from`. After a refusal the tag is written, and the
/// pointer is null.
///
/// # Preconditions
///
/// ```text
/// requires aligned { IsAligned place }
/// requires inside { IsStructPlace (A.view arena.old).words place }
/// requires tag { IsInside place.bits 16 tag.offset }
/// requires field { index < place.pointers }
/// ```
#[inline]
pub fn set_pointer_from_member<A: BuilderArena, B: ReaderArena>(
    arena: &mut A,
    place: StructPlace,
    tag: UnionTag,
    index: usize,
    from: PointerReader<'_, B>,
    lim: &mut ReadLimiter,
) -> Result<(), ErrorKind> {
    value::set_tag(arena, place, tag);
    set_pointer_from(arena, place, index, from, lim)
}
