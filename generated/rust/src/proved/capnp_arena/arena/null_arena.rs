//! An arena that holds no message.

use crate::proved::capnp_arena::arena::ReaderArena;
use crate::proved::capnp_words::error::ErrorKind;

/// An arena without segments. Refuses every segment number with `TriedToReadFromNullArena`. Charges
/// nothing, and its nesting limit is `i32::MAX`.
#[derive(Clone, Copy)]
pub struct NullArena;

impl ReaderArena for NullArena {
    #[inline]
    fn get_segment(&self, _id: u32) -> Result<&[u8], ErrorKind> {
        Err(ErrorKind::TriedToReadFromNullArena)
    }

    #[inline]
    fn nesting_limit(&self) -> i32 {
        i32::MAX
    }

    #[inline]
    fn charges(&self) -> bool {
        false
    }

    #[inline]
    fn size_in_words(&self) -> usize {
        0
    }
}
