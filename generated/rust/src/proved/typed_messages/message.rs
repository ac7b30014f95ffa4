//! Messages: the segments of a message that is read, with its limits, and a message being built, with
//! its memory.

pub use crate::proved::capnp_arena::arena::ReaderOptions;
use crate::proved::capnp_arena::arena::{
    BuilderArena, BuilderArenaImpl, HeapAllocator, ReaderArenaImpl, ReaderSegments,
};
use crate::proved::capnp_words::error::ErrorKind;
use crate::proved::capnp_words::read_limiter::ReadLimiter;
use crate::proved::support::alloc::Global;

/// A message that is read: its segments, and what is left of its limits. Generated readers take both
/// parts: `address_book::Reader::root(&message.arena, &mut message.limiter)`.
pub struct MessageReader<S: ReaderSegments> {
    /// The segments, with the nesting limit.
    pub arena: ReaderArenaImpl<S>,
    /// What is left of the traversal limit.
    pub limiter: ReadLimiter,
}

impl<S: ReaderSegments> MessageReader<S> {
    /// Makes the message of `segments`, with the limits of `options`. Precondition: `segments` has
    /// fewer than 2^32 segments, each of fewer than 2^32 words. Ignores the bytes, at most 7, after
    /// a segment's last whole word.
    ///
    /// # Preconditions
    ///
    /// ```text
    /// requires { IsSmall (S.segments segments) }
    /// ```
    #[inline]
    pub fn new(segments: S, options: ReaderOptions) -> Self {
        MessageReader {
            arena: ReaderArenaImpl::new(segments, options),
            limiter: ReadLimiter::new(options.traversal_limit_in_words),
        }
    }

    /// Returns the segments that `new` took.
    #[inline]
    pub fn into_segments(self) -> S {
        let MessageReader { arena, limiter: _ } = self;
        arena.into_segments()
    }
}

/// The arena of a `MessageBuilder`.
pub type HeapArena = BuilderArenaImpl<HeapAllocator>;

/// A message being built, in segments on the heap. Generated builders take its arena:
/// `address_book::Builder::init_root(&mut message.arena)`.
pub struct MessageBuilder {
    /// The segments. They can be read, too, which charges nothing.
    pub arena: HeapArena,
}

impl MessageBuilder {
    /// Makes a message of one segment, whose only word is a null root pointer. The segment has room
    /// for `words` words, or for 1 if `words` is 0. Later segments get as much room, or more if an
    /// object needs more. Precondition: `words` is at most 536,870,911.
    ///
    /// Refuses with `AllocationFailed` if memory runs out.
    ///
    /// # Preconditions
    ///
    /// ```text
    /// requires { words ≤ max_segment_words }
    /// ```
    #[inline]
    pub fn new(alloc: Global, words: u32) -> Result<Self, ErrorKind> {
        let mut arena = BuilderArenaImpl::new(alloc, HeapAllocator::new(alloc, words));
        match arena.allocate_segment(1) {
            Ok(()) => {
                let _root = arena.allocate(0, 1);
                Ok(MessageBuilder { arena })
            }
            Err(error) => Err(error),
        }
    }
}
