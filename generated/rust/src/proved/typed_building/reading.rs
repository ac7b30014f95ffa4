//! What a struct of a message being built holds.

use crate::proved::capnp_allocation::landing::pointer_word;
use crate::proved::capnp_arena_traits::arena::BuilderArena;
use crate::proved::capnp_in_place::{existing, numbers};
use crate::proved::capnp_readers::readers::StructPlace;
use crate::proved::capnp_words::error::ErrorKind;
use crate::proved::capnp_words::mask::Mask;
use crate::proved::capnp_words::primitive::Primitive;
use crate::proved::capnp_words::zero::Zero;

/// Returns the number at `offset` of a struct's data, counted in numbers of type `T`.
/// Preconditions: `place` is inside the message and aligned; the field at `offset` is inside the
/// data section.
///
/// # Preconditions
///
/// ```text
/// requires aligned { IsAligned place }
/// requires inside { IsStructPlace (A.view arena.now).words place }
/// requires field { IsInside place.bits (8 * T.BYTES) offset }
/// ```
#[inline]
pub fn get_number<A: BuilderArena, T: Primitive + Zero>(
    arena: &A,
    place: StructPlace,
    offset: usize,
) -> T {
    let byte = place.byte + (offset * T::BYTES) as u64;
    numbers::get_number(arena, place.segment, byte)
}

/// Returns the number at `offset` of a struct's data, like `get_number`, of a field whose default
/// value is `default`: the exclusive or of what is stored and the default. Preconditions: `place`
/// is inside the message and aligned; the field at `offset` is inside the data section.
///
/// # Preconditions
///
/// ```text
/// requires aligned { IsAligned place }
/// requires inside { IsStructPlace (A.view arena.now).words place }
/// requires field { IsInside place.bits (8 * T.BYTES) offset }
/// ```
#[inline]
pub fn get_number_or<A: BuilderArena, T: Primitive + Zero + Mask>(
    arena: &A,
    place: StructPlace,
    offset: usize,
    default: <T as Mask>::T,
) -> T {
    T::mask(get_number(arena, place, offset), default)
}

/// Returns bit `offset` of a struct's data. Preconditions: `place` is inside the message; bit
/// `offset` is inside the data section.
///
/// # Preconditions
///
/// ```text
/// requires inside { IsStructPlace (A.view arena.now).words place }
/// requires field { offset < place.bits }
/// ```
#[inline]
pub fn get_bool<A: BuilderArena>(arena: &A, place: StructPlace, offset: usize) -> bool {
    let bit = 8 * place.byte + offset as u64;
    numbers::get_bit(arena, place.segment, bit)
}

/// Returns whether a pointer of a struct isn't null. Preconditions: `place` is inside the message;
/// `index` is below `place.pointers`.
///
/// # Preconditions
///
/// ```text
/// requires inside { IsStructPlace (A.view arena.now).words place }
/// requires field { index < place.pointers }
/// ```
#[inline]
pub fn has<A: BuilderArena>(arena: &A, place: StructPlace, index: usize) -> bool {
    let at = place.pointers_at + index as u32;
    !pointer_word(arena, place.segment, at).is_null()
}
