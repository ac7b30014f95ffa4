//! Clears what a refused copy has made.

use crate::proved::capnp_allocation::making::clear;
use crate::proved::capnp_arena_traits::arena::{BuilderArena, WordPlace};
use crate::proved::capnp_words::error::ErrorKind;

/// Ends a copy to the pointer at `to`. If the copy was refused, makes the pointer null, and zeroes
/// what was made for the copy. Returns `copied`. Precondition: if `copied` is a refusal, the word
/// at `to` is allocated.
///
/// # Preconditions
///
/// ```text
/// requires { OnErr copied (IsPlace (A.view arena.old).words to.segment to.at) }
/// ```
#[inline(always)]
pub fn clear_if_refused<A: BuilderArena>(
    arena: &mut A,
    to: WordPlace,
    copied: Result<(), ErrorKind>,
) -> Result<(), ErrorKind> {
    match copied {
        Ok(()) => Ok(()),
        Err(k) => {
            clear(arena, to.segment, to.at);
            Err(k)
        }
    }
}
