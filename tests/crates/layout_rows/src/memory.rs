//! The memory of a message being built, and its words afterwards.

use crate::output::Output;
use crate::parse::{self, Fault};
use capnp_proved::capnp_arena::arena::{
    HeapAllocator, ReaderArena, ScratchSpaceHeapAllocator, MAX_SEGMENT_WORDS,
};
use capnp_proved::layout_vectors::vectors::LimitedAllocator;
use capnp_proved::support::alloc::Global;

/// The memory that a message is built in.
#[derive(Clone, Copy)]
pub struct Memory {
    words: u32,
    segments: u32,
    rows: u32,
    scratch_words: Option<u32>,
}

impl Memory {
    /// Parses how much memory there is. `words` is the least number of words of a segment, and
    /// `segments` the number of segments that are granted, or `none` for any number. After a `/`,
    /// `words` may have the number of words of a scratch space, and `segments` the number of rows
    /// that are granted. A row is what an arena knows of a segment.
    pub fn parse(words: &str, segments: &str) -> Result<Self, Fault> {
        let (words, scratch_words) = match words.split_once('/') {
            Some((words, scratch)) => (words, Some(parse::number(scratch)?)),
            None => (words, None),
        };
        let words = parse::number(words)?;
        if words > MAX_SEGMENT_WORDS {
            return Err(Fault::Unfit);
        }
        let (segments, rows) = segments.split_once('/').unwrap_or((segments, "none"));
        Ok(Memory {
            words,
            segments: parse::limit(segments)?.unwrap_or(u32::MAX),
            rows: parse::limit(rows)?.unwrap_or(u32::MAX),
            scratch_words,
        })
    }

    /// Makes the bytes of the scratch space, if there is one. None of them is zero.
    pub fn allocate_scratch(&self) -> Option<Vec<u8>> {
        let words = self.scratch_words?;
        Some(vec![0xff; 8 * words as usize])
    }

    /// Makes the allocator of a message without a scratch space.
    pub fn heap_allocator(&self) -> LimitedAllocator<HeapAllocator> {
        let heap = HeapAllocator::new(Global, self.words);
        LimitedAllocator::new(heap, self.segments, self.rows)
    }

    /// Makes the allocator of a message with the scratch space `scratch`.
    pub fn scratch_allocator<'a>(
        &self,
        scratch: &'a mut [u8],
    ) -> LimitedAllocator<ScratchSpaceHeapAllocator<'a>> {
        let scratch = ScratchSpaceHeapAllocator::new(Global, scratch, self.words);
        LimitedAllocator::new(scratch, self.segments, self.rows)
    }
}

/// Adds the allocated words of each segment in hex digits, with commas between segments.
pub fn push_words(arena: &impl ReaderArena, out: &mut Output) {
    for (id, bytes) in (0..).map_while(|id| Some((id, arena.get_segment(id).ok()?))) {
        if id > 0 {
            out.push_text(",");
        }
        out.push_hex(bytes);
    }
}
