//! The arena of a message being read.

use crate::proved::capnp_arena::arena::{ReaderArena, ReaderSegments};
use crate::proved::capnp_words::error::ErrorKind;

/// The limits for reading a message. The default is 8,388,608 words and a nesting limit of 64.
#[derive(Clone, Copy)]
pub struct ReaderOptions {
    /// The traversal limit: how many words may be read; `None` for no limit. An arena doesn't use
    /// this limit: the caller passes it to `ReadLimiter::new`.
    pub traversal_limit_in_words: Option<usize>,
    /// The nesting limit: how many structs and lists may be inside one another.
    pub nesting_limit: i32,
}

impl Default for ReaderOptions {
    #[inline]
    fn default() -> Self {
        ReaderOptions {
            traversal_limit_in_words: Some(8_388_608),
            nesting_limit: 64,
        }
    }
}

/// The arena of a message being read. Consists of the whole words of each segment; ignores the
/// bytes, at most 7, after a segment's last whole word.
pub struct ReaderArenaImpl<S: ReaderSegments> {
    segments: S,
    nesting_limit: i32,
    words: usize,
}

impl<S: ReaderSegments> ReaderArenaImpl<S> {
    /// Makes the arena of `segments`, with the nesting limit of `options`. Precondition: `segments`
    /// has fewer than 2^32 segments, each of fewer than 2^32 words.
    ///
    /// # Preconditions
    ///
    /// ```text
    /// requires { IsSmall (S.segments segments) }
    /// ```
    #[inline]
    pub fn new(segments: S, options: ReaderOptions) -> Self {
        let mut words = 0;
        for id in 0..segments.len() as u64 {
            if let Some(segment) = segments.get_segment(id as u32) {
                words += segment.len() / 8;
            }
        }
        ReaderArenaImpl {
            segments,
            nesting_limit: options.nesting_limit,
            words,
        }
    }

    /// Returns the segments that `new` took.
    #[inline]
    pub fn into_segments(self) -> S {
        let ReaderArenaImpl {
            segments,
            nesting_limit: _,
            words: _,
        } = self;
        segments
    }
}

impl<S: ReaderSegments> ReaderArena for ReaderArenaImpl<S> {
    #[inline]
    fn get_segment(&self, id: u32) -> Result<&[u8], ErrorKind> {
        match self.segments.get_segment(id) {
            Some(s) => Ok(&s[..8 * (s.len() / 8)]),
            None => Err(ErrorKind::InvalidSegmentId(id)),
        }
    }

    #[inline]
    fn nesting_limit(&self) -> i32 {
        self.nesting_limit
    }

    #[inline]
    fn charges(&self) -> bool {
        true
    }

    #[inline]
    fn size_in_words(&self) -> usize {
        self.words
    }
}
