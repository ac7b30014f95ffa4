//! The next places of a copy.

use crate::proved::capnp_arena_traits::arena::WordPlace;

/// The place `words` words after `place`, in the same segment. Precondition: `place.at + words` is
/// below 2^32.
///
/// # Preconditions
///
/// ```text
/// requires { place.at + words < 2 ^ 32 }
/// ```
pub fn place_past(place: WordPlace, words: u32) -> WordPlace {
    WordPlace {
        at: place.at + words,
        ..place
    }
}
