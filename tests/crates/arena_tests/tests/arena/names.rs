//! Uses the names of `capnp_arena` that no other test here uses, and each trait as a bound.

use capnp_proved::capnp_arena::arena::{
    Allocator, BuilderArena, BuilderArenaImpl, HeapAllocator, HeapSegment, NullArena, ReaderArena,
    ReaderArenaImpl, ReaderOptions, ReaderSegments, Segment, SegmentArray, SegmentId,
    MAX_SEGMENT_WORDS,
};
use capnp_proved::capnp_words::error::ErrorKind;
use capnp_proved::capnp_words::read_limiter::ReadLimiter;
use capnp_proved::support::alloc::Global;
use capnp_proved::support::vec::Vec as List;

fn segment_count<S: ReaderSegments>(segments: &S) -> usize {
    segments.len()
}

fn word_count<A: ReaderArena>(arena: &A) -> usize {
    arena.size_in_words()
}

fn allocate_one_word_segment<A: Allocator>(allocator: &mut A) -> A::Segment {
    allocator.allocate_segment(1).unwrap()
}

fn allocate_one_word<A: BuilderArena>(arena: &mut A) -> Result<(SegmentId, u32), ErrorKind> {
    arena.allocate_anywhere(1)
}

#[test]
fn building_traits_work_as_bounds() {
    assert_eq!(MAX_SEGMENT_WORDS, 536_870_911);
    let mut allocator = HeapAllocator::new(Global, 0);
    let mut segment: HeapSegment = allocate_one_word_segment(&mut allocator);
    segment.bytes_mut().fill(3);
    assert_eq!(segment.bytes(), [3; 8]);
    drop(segment);

    let fresh = allocate_one_word_segment(&mut allocator);
    allocator.deallocate_segment(fresh, 0);
    let mut list = List::new(Global);
    assert_eq!(allocator.keep(&mut list, 7u8), None);
    assert_eq!(list.as_slice(), [7]);
    assert_eq!(allocator.refused(), 0);

    let mut arena = BuilderArenaImpl::new(Global, allocator);
    let first: SegmentId = 0u32;
    assert_eq!(allocate_one_word(&mut arena), Ok((first, 0)));
}

#[test]
fn reading_traits_work_as_bounds() {
    let bytes = [7u8; 23];
    let segments = [bytes.as_slice()];
    let array = SegmentArray::new(&segments).unwrap();
    let arena = ReaderArenaImpl::new(array, ReaderOptions::default());
    assert!(arena.charges());
    assert_eq!(arena.nesting_limit(), 64);
    assert_eq!(word_count(&arena), 2);
    assert_eq!(segment_count(&arena.into_segments()), 1);

    let mut lim = ReadLimiter::new(Some(1));
    assert_eq!(NullArena.amplified_read(9, &mut lim), Ok(()));
    assert_eq!(lim.left(), Some(1));
    assert!(!NullArena.charges());
    assert_eq!(NullArena.nesting_limit(), i32::MAX);
    assert_eq!(word_count(&NullArena), 0);
}
