//! The places of the pointers still to be visited.

use crate::proved::capnp_arena_traits::arena::WordPlace;
use crate::proved::capnp_words::wire_pointer::StructSize;
use crate::proved::support::alloc::AllocError;
use crate::proved::support::vec::Vec;

/// Appends the place at word `at` of segment `segment` to `pending`.
pub(in crate::proved::layout_vectors) fn push_place(
    pending: &mut Vec<WordPlace>,
    segment: u32,
    at: u32,
) -> Result<(), AllocError> {
    pending.push(WordPlace { segment, at })?;
    Ok(())
}

/// Appends the places of the `count` consecutive pointers from word `start` on to `pending`.
///
/// # Preconditions
///
/// ```text
/// requires { start + count < 2 ^ 32 }
/// ```
pub(in crate::proved::layout_vectors) fn push_pointers(
    pending: &mut Vec<WordPlace>,
    segment: u32,
    start: u32,
    count: u32,
) -> Result<(), AllocError> {
    for i in 0..count {
        push_place(pending, segment, start + i)?;
    }
    Ok(())
}

/// Appends the places of the pointers in the `count` consecutive structs of `size` from word
/// `start` on to `pending`.
///
/// # Preconditions
///
/// ```text
/// requires { start + count * (size.data_words + size.pointers) < 2 ^ 32 }
/// ```
pub(in crate::proved::layout_vectors) fn push_element_pointers(
    pending: &mut Vec<WordPlace>,
    segment: u32,
    start: u32,
    size: StructSize,
    count: u32,
) -> Result<(), AllocError> {
    if size.pointers == 0 {
        return Ok(());
    }
    let mut at = start;
    for _i in 0..count {
        at += u32::from(size.data_words);
        push_pointers(pending, segment, at, u32::from(size.pointers))?;
        at += u32::from(size.pointers);
    }
    Ok(())
}
