//! What a pointer leads to: one object, without its children.

use crate::proved::capnp_arena_traits::arena::ReaderArena;
use crate::proved::capnp_readers::readers::{ListReader, StructReader};

/// What a pointer leads to. The words of a struct or a list are checked and charged; its children
/// aren't read yet.
pub enum Target<'a, A: ReaderArena> {
    /// Nothing: the pointer is zero.
    Null,
    /// A capability, by its index in the message's capability table.
    Cap(u32),
    /// A struct, whose nesting limit is one less than the pointer's.
    Struct(StructReader<'a, A>),
    /// A list, whose nesting limit is one less than the pointer's.
    List(ListReader<'a, A>),
}

impl<'a, A: ReaderArena> Clone for Target<'a, A> {
    #[inline]
    fn clone(&self) -> Self {
        *self
    }
}

impl<'a, A: ReaderArena> Copy for Target<'a, A> {}
