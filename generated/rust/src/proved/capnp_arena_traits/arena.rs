//! The traits of arenas, which hold the segments of a message, each of whole words. A `ReaderArena`
//! tests whether places are inside of their segments, and charges reads to a traversal limit. A
//! `BuilderArena` can also be written.

mod builder_arena;
mod reader_arena;
mod writing;

pub use builder_arena::{sealed, BuilderArena};
pub use reader_arena::ReaderArena;
pub use writing::{copy_words, set_word, zero_words};

/// The number of a segment, counted from 0.
pub type SegmentId = u32;

/// A place in a message being built, such as that of a pointer, or where an object starts: word `at`
/// of a segment.
#[derive(Clone, Copy, Debug, PartialEq, Eq)]
pub struct WordPlace {
    /// The segment.
    pub segment: SegmentId,
    /// The position of the word in the segment, in words.
    pub at: u32,
}
