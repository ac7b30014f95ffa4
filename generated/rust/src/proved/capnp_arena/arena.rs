//! Arenas: the segments of a message, each of whole words. A reader arena tests whether places are
//! inside of their segments, and charges reads to a traversal limit. A builder arena can also be
//! written.

mod allocator;
mod bounds;
mod builder_arena_impl;
mod heap_allocator;
mod listed;
mod null_allocator;
mod null_arena;
mod output_segments;
mod reader_arena_impl;
mod reader_segments;
mod row;
mod rows;
mod scratch_allocator;

pub use crate::proved::capnp_arena_traits::arena::{
    copy_words, set_word, zero_words, BuilderArena, ReaderArena, SegmentId, WordPlace,
};
pub use allocator::{push_or_count_refusal, Allocator, Segment};
pub use builder_arena_impl::BuilderArenaImpl;
pub use heap_allocator::{HeapAllocator, HeapSegment};
pub use null_allocator::NullAllocator;
pub use null_arena::NullArena;
pub use output_segments::OutputSegments;
pub use reader_arena_impl::{ReaderArenaImpl, ReaderOptions};
pub use reader_segments::{ReaderSegments, SegmentArray};
pub use scratch_allocator::{ScratchSegment, ScratchSpaceHeapAllocator};

/// The most words that a segment being built can have: 536,870,911, so each position fits the 29
/// bits that a far pointer has for it (encoding specification, "Inter-Segment Pointers").
pub const MAX_SEGMENT_WORDS: u32 = 0x1fff_ffff;

/// The most segments that a message being built can have: 4,294,967,295, the greatest `u32`.
const MAX_SEGMENTS: usize = 0xffff_ffff;
