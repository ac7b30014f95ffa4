//! Copies consecutive pointers, up to the first one that is refused.

use crate::proved::capnp_arena_traits::arena::{BuilderArena, ReaderArena, WordPlace};
use crate::proved::capnp_copies::copy::{copy_value, place_past};
use crate::proved::capnp_pointers::pointers::Pointer;
use crate::proved::capnp_words::error::ErrorKind;
use crate::proved::capnp_words::read_limiter::ReadLimiter;

/// Makes plain copies of the values of `count` consecutive pointers, from `from` on, to the `count`
/// null pointers from `to` on. Preconditions: the segment of `from` has at least `from.place.at +
/// count` words; segment `to.segment` has at least `to.at + count` allocated words; the `count`
/// words from `to` on are zero.
///
/// Refuses with the first refusal of `copy_value`. The pointers before the refused one are then
/// copied; the refused one and those after it are null. Never refuses if all the pointers can be
/// read, and the copies fit after the words of the segment of `to`.
///
/// # Preconditions
///
/// ```text
/// requires { HasNullsFor (reading B.ReaderArena from) count
///     (A.view arena.old).words to.segment to.at }
/// ```
#[inline]
pub fn copy_each<A: BuilderArena, B: ReaderArena>(
    arena: &mut A,
    to: WordPlace,
    from: Pointer<'_, B>,
    count: u32,
    lim: &mut ReadLimiter,
) -> Result<(), ErrorKind> {
    for i in 0..count {
        let child = from.past(i);
        let place = place_past(to, i);
        copy_value(arena, place, child, lim, false)?;
    }
    Ok(())
}
