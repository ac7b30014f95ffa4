//! Where the segments of a message are.

use crate::proved::capnp_arena::arena::{
    OutputSegments, ReaderArena, ReaderArenaImpl, ReaderSegments, SegmentArray,
};
use crate::proved::capnp_framing::framing::{FrameSegments, OwnedSegments};
use core::iter::FusedIterator;

/// The segments of a message that is read.
pub enum Held<'a> {
    /// The only one.
    One(&'a [u8]),
    /// In the frame that was opened.
    Frame(FrameSegments<'a>),
    /// In memory of the program.
    Borrowed(SegmentArray<'a>),
    /// In a message that is being built.
    Built(OutputSegments<'a>),
    /// In memory of the message.
    Owned(OwnedSegments),
}

impl ReaderSegments for Held<'_> {
    #[inline(always)]
    fn get_segment(&self, id: u32) -> Option<&[u8]> {
        match self {
            Held::One(words) => (id == 0).then_some(*words),
            Held::Frame(segments) => segments.get_segment(id),
            Held::Borrowed(segments) => segments.get_segment(id),
            Held::Built(segments) => segments.get_segment(id),
            Held::Owned(segments) => segments.get_segment(id),
        }
    }

    #[inline(always)]
    fn len(&self) -> usize {
        match self {
            Held::One(_) => 1,
            Held::Frame(segments) => segments.len(),
            Held::Borrowed(segments) => segments.len(),
            Held::Built(segments) => segments.len(),
            Held::Owned(segments) => segments.len(),
        }
    }
}

/// The arena of every message that is read.
pub type Arena<'a> = ReaderArenaImpl<Held<'a>>;

/// The segments of a message: the bytes of each.
#[derive(Clone)]
pub struct Segments<'m> {
    arena: &'m Arena<'m>,
    next: u32,
}

impl<'m> Segments<'m> {
    pub(crate) fn of(arena: &'m Arena<'m>) -> Self {
        Segments { arena, next: 0 }
    }
}

impl<'m> Iterator for Segments<'m> {
    type Item = &'m [u8];

    fn next(&mut self) -> Option<&'m [u8]> {
        let segment = self.arena.get_segment(self.next).ok()?;
        self.next += 1;
        Some(segment)
    }
}

impl FusedIterator for Segments<'_> {}
