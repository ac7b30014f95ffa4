//! Tests of arenas whose first segment is in the scratch space: memory lent by the caller.

use capnp_proved::capnp_arena::arena::{
    Allocator, BuilderArena, BuilderArenaImpl, ReaderArena, ScratchSegment,
    ScratchSpaceHeapAllocator, Segment,
};
use capnp_proved::support::alloc::Global;

/// Makes an arena, and checks that it uses the lent memory for its first segment, and ignores what
/// that memory held: allocates all four words of the first segment, checks that they are zero, and
/// writes them. Then allocates words that don't fit there. Returns the allocator.
fn outgrow(allocator: ScratchSpaceHeapAllocator<'_>) -> ScratchSpaceHeapAllocator<'_> {
    let mut arena = BuilderArenaImpl::new(Global, allocator);
    arena.allocate_segment(1).unwrap();
    assert_eq!(arena.allocate(0, 4), Some(0));
    assert_eq!(arena.get_segment(0), Ok([0; 32].as_slice()));
    assert!(arena.get_segment(1).is_err());
    arena.allocated_mut(0).unwrap().fill(7);
    assert_eq!(arena.allocate_anywhere(5), Ok((1, 0)));
    assert_eq!(arena.allocate(1, 1), None);
    assert_eq!(arena.refused(), 0);
    arena.into_allocator()
}

/// The scratch space is used again after it was returned.
#[test]
fn returned_scratch_is_used_again() {
    let mut scratch = [0xff; 35];
    let allocator = ScratchSpaceHeapAllocator::new(Global, &mut scratch, 0);
    outgrow(outgrow(allocator));
}

/// Requests a segment of `words` words. Checks that it is in the scratch space exactly if
/// `is_lent`, and that it has `bytes` bytes, all zero.
#[track_caller]
fn check_segment(
    allocator: &mut ScratchSpaceHeapAllocator<'_>,
    words: u32,
    (is_lent, bytes): (bool, usize),
) {
    let segment = allocator.allocate_segment(words).unwrap();
    assert_eq!(matches!(segment, ScratchSegment::Borrowed(_)), is_lent);
    assert_eq!(segment.bytes(), vec![0; bytes]);
}

/// The scratch space is used for the first request that it is large enough for, and not again
/// before it is returned. It is never used if it has no whole word.
#[test]
fn scratch_is_lent_to_first_fitting_request() {
    let mut scratch = [0xff; 16];
    let mut allocator = ScratchSpaceHeapAllocator::new(Global, &mut scratch, 3);
    check_segment(&mut allocator, 4, (false, 32));
    check_segment(&mut allocator, 2, (true, 16));
    check_segment(&mut allocator, 2, (false, 24));
    let mut short = [0xff; 7];
    let mut allocator = ScratchSpaceHeapAllocator::new(Global, &mut short, 0);
    check_segment(&mut allocator, 0, (false, 0));
}

/// All bytes of the scratch space are zeroed, also those after the last whole word.
#[test]
fn all_scratch_bytes_are_zeroed() {
    let mut scratch = [0xff; 35];
    ScratchSpaceHeapAllocator::new(Global, &mut scratch, 0);
    assert_eq!(scratch, [0; 35]);
    let mut short = [0xff; 7];
    ScratchSpaceHeapAllocator::new(Global, &mut short, 0);
    assert_eq!(short, [0; 7]);
}
