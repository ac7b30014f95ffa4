//! Tests what an arena requests from its allocator: segments and rows. A row is the arena's entry
//! for a segment, in a list that the arena holds.

use capnp_proved::capnp_arena::arena::{
    copy_words, set_word, zero_words, Allocator, BuilderArena, BuilderArenaImpl, HeapAllocator,
    OutputSegments, ReaderArena, ReaderSegments,
};
use capnp_proved::capnp_words::read_limiter::ReadLimiter;
use capnp_proved::support::alloc::Global;
use std::iter;
use test_support::{FirstInArena, NotingAllocator, Request};

/// Makes an allocator that notes its requests, and whose segments have at least `words` words.
fn noting_allocator(words: u32) -> NotingAllocator {
    NotingAllocator::new(HeapAllocator::new(Global, words))
}

/// The requests for `segments` segments of `words` words: each is followed by one for the segment's
/// row, except for the first `rowless`.
fn segments_and_rows(words: u32, segments: usize, rowless: usize) -> Vec<Request> {
    (0..segments)
        .flat_map(|id| {
            let row = (id >= rowless).then_some(Request::Row);
            iter::once(Request::Segment(words)).chain(row)
        })
        .collect()
}

/// Allocates three of four words in segment 0, and writes them.
fn write_words(arena: &mut impl BuilderArena) {
    assert!(arena.get_segment(0).is_ok());
    assert_eq!(arena.allocate(0, 3), Some(0));
    set_word(arena, 0, 1, 7);
    copy_words(arena, 0, 0, b"99999999");
    zero_words(arena, 0, 1, 1);
    let mut want = [0; 24];
    want[..8].fill(b'9');
    assert_eq!(arena.get_segment(0), Ok(want.as_slice()));
}

/// Allocates the last word of segment 0, after `write_words`.
fn allocate_last_word(arena: &mut impl BuilderArena) {
    assert_eq!(arena.allocate(0, 2), None);
    assert_eq!(arena.allocate(0, 0), Some(3));
    assert_eq!(arena.allocate_anywhere(1), Ok((0, 3)));
    assert!(arena.allocated_mut(0).is_some());
    assert!(arena.allocated_mut(1).is_none());
}

fn read_words(arena: &impl BuilderArena) {
    let mut lim = ReadLimiter::new(Some(4));
    assert!(arena.get_segment(0).is_ok());
    assert_eq!(arena.size_in_words(), 4);
    assert_eq!(arena.check_offset(0, 1, 2), Ok(3));
    assert_eq!(arena.contains_interval(0, 1, 3, &mut lim), Ok(()));
    assert_eq!(arena.amplified_read(1, &mut lim), Ok(()));
    assert_eq!(lim.left(), Some(4), "reading a message being built is free");
    assert_eq!(arena.refused(), 0);
}

/// Allocates words in a segment that has room for them, lends a segment's words for writing, gets
/// the output of one segment, and reads. None of these requests anything from the allocator.
#[test]
fn fitting_words_request_nothing() {
    let mut arena = BuilderArenaImpl::new(Global, noting_allocator(4));
    arena.allocate_segment(1).unwrap();
    write_words(&mut arena);
    allocate_last_word(&mut arena);
    let output = arena.get_segments_for_output().unwrap();
    assert!(matches!(output, OutputSegments::SingleSegment(_)));
    drop(output);
    read_words(&arena);
    assert_eq!(arena.len(), 1);
    assert_eq!(
        arena.into_allocator().requests(),
        segments_and_rows(1, 1, 0)
    );
}

/// If words fit in no segment, the arena requests a segment of exactly this many words, and then
/// the segment's row.
#[test]
fn full_arena_asks_for_exact_segment() {
    let mut arena = BuilderArenaImpl::new(Global, noting_allocator(4));
    assert_eq!(arena.allocate_anywhere(3), Ok((0, 0)));
    assert_eq!(arena.allocate_anywhere(2), Ok((1, 0)));
    assert_eq!(arena.allocate_anywhere(1), Ok((0, 3)));
    assert_eq!(arena.refused(), 0);
    let asked = [
        Request::Segment(3),
        Request::Row,
        Request::Segment(2),
        Request::Row,
    ];
    assert_eq!(arena.into_allocator().requests(), asked);
}

/// Allocates the two words of segment `id`, and writes them. Lets the arena choose the segment of
/// the second word; so the caller passes an arena whose first segment with room is `id`.
fn fill_segment(arena: &mut impl BuilderArena, id: u32) {
    assert_eq!(arena.allocate(id, 1), Some(0));
    assert_eq!(arena.allocate_anywhere(1), Ok((id, 1)));
    arena.allocated_mut(id).unwrap().fill(b'3');
    assert_eq!(
        arena.get_segment(id),
        Ok(b"3333333333333333".as_slice()),
        "segment {id}"
    );
    let mut lim = ReadLimiter::new(Some(2));
    assert_eq!(arena.contains_interval(id, 0, 2, &mut lim), Ok(()));
}

/// Makes `count` segments of two words, calls `fill_segment` for each, and gets the output of all.
/// Only making a segment requests something from the allocator. Returns the allocator.
fn fill_segments<A: Allocator>(allocator: A, count: usize) -> A {
    let mut arena = BuilderArenaImpl::new(Global, allocator);
    for _ in 0..count {
        arena.allocate_segment(2).unwrap();
    }
    for id in 0..count {
        fill_segment(&mut arena, id as u32);
    }
    assert_eq!(arena.size_in_words(), 2 * count);
    assert_eq!(arena.len(), count);
    assert_eq!(arena.get_segments_for_output().unwrap().len(), count);
    arena.into_allocator()
}

/// However many segments there are, each request is for a segment or for its row.
#[test]
fn only_segments_and_rows_are_requested() {
    for count in [1, 10, 1_000] {
        let allocator = fill_segments(noting_allocator(0), count);
        assert_eq!(allocator.requests(), segments_and_rows(2, count, 0));
    }
}

/// If the first segment needs no row, none is requested for it. However many segments there are,
/// each request is for a segment or for its row.
#[test]
fn first_segment_requests_no_row() {
    for count in [1, 10, 1_000] {
        let allocator = fill_segments(FirstInArena::new(noting_allocator(0)), count);
        assert_eq!(allocator.inner().requests(), segments_and_rows(2, count, 1));
    }
}
