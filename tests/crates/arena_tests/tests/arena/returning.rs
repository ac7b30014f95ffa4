//! Tests what an arena returns to its allocator when the arena is dropped or taken apart: each
//! segment once, in the order of the segments' numbers, with the number of its used words. A row is
//! the arena's entry for a segment, in a list of the arena. A segment whose row was refused has
//! already been returned, at once and without a used word. An arena without its allocator returns
//! nothing.

use capnp_proved::capnp_arena::arena::{Allocator, BuilderArena, BuilderArenaImpl, HeapAllocator};
use capnp_proved::capnp_words::error::ErrorKind;
use capnp_proved::support::alloc::Global;
use std::cell::Cell;
use test_support::{FirstInArena, Granted, TestAllocator};

// What is returned, two decimal digits for the words of a segment and two for those that were used.
// A new segment needs a row in the list of the arena, and is returned at once, unused, if memory
// for its row is refused. With memory for four rows all are returned used; for three, the fourth at
// once, then the others; for none, each at once. An arena that keeps its first row in itself needs
// none for the first segment.
const ALL_USED: u64 = 3_03_05_05_07_07_11_11;

const LAST_AT_ONCE: u64 = 11_00_03_03_05_05_07_07;

const NONE_USED: u64 = 3_00_05_00_07_00_11_00;

const FIRST_USED: u64 = 5_00_07_00_11_00_03_03;

/// Makes an allocator that grants all segments, and the first `rows` rows.
fn granting_rows(rows: u64, returned: &Cell<u64>) -> TestAllocator<'_> {
    let heap = HeapAllocator::new(Global, 0);
    TestAllocator::new(heap, Granted::Rows(rows), returned)
}

/// Allocates words in up to four segments, in as many as the allocator grants rows for. Returns the
/// arena and the number of segments.
fn fill_arena<A: Allocator>(allocator: A) -> (BuilderArenaImpl<A>, u64) {
    let mut arena = BuilderArenaImpl::new(Global, allocator);
    let mut made = 0;
    for amount in [3, 5, 7, 11] {
        match arena.allocate_anywhere(amount) {
            Ok(_) => made += 1,
            Err(kind) => assert_eq!(kind, ErrorKind::AllocationFailed),
        }
    }
    (arena, made)
}

/// Fills an arena of `allocator`, and checks that `made` of four segments were made. Then takes the
/// arena apart if `is_apart`, otherwise drops it, and checks that `want` is what was returned, also
/// after the allocator is dropped.
fn check_returned<A: Allocator>(
    allocator: A,
    (made, want): (u64, u64),
    returned: &Cell<u64>,
    is_apart: bool,
) {
    let (arena, segments) = fill_arena(allocator);
    assert_eq!(segments, made);
    assert_eq!(arena.refused(), 4 - made);
    if is_apart {
        let allocator = arena.into_allocator();
        assert_eq!(returned.get(), want);
        assert_eq!(allocator.refused(), 4 - made);
        drop(allocator);
    } else {
        drop(arena);
    }
    assert_eq!(returned.get(), want, "{made} segments");
}

/// An arena that is granted all four segments, and memory for four rows, three or none, is dropped
/// or taken apart (`into_allocator`).
#[test]
fn dropped_or_taken_apart() {
    for (rows, made, want) in [(4, 4, ALL_USED), (3, 3, LAST_AT_ONCE), (0, 0, NONE_USED)] {
        for is_apart in [false, true] {
            let returned = Cell::new(0);
            let allocator = granting_rows(rows, &returned);
            check_returned(allocator, (made, want), &returned, is_apart);
        }
    }
}

/// The first segment requests no row if the arena holds that row itself. A later segment whose row
/// is refused isn't dropped, but returned at once.
#[test]
fn first_segment_needs_no_row() {
    for (rows, made, want) in [(3, 4, ALL_USED), (2, 3, LAST_AT_ONCE), (0, 1, FIRST_USED)] {
        for is_apart in [false, true] {
            let returned = Cell::new(0);
            let allocator = FirstInArena::new(granting_rows(rows, &returned));
            check_returned(allocator, (made, want), &returned, is_apart);
        }
    }
}

/// An arena without its allocator keeps its segments and gets no more. If the allocator is put back
/// and the arena is then dropped, the allocator gets back all segments, also one that it granted
/// after it was put back.
#[test]
fn allocator_put_back_gets_all_segments() {
    let returned = Cell::new(0);
    let (arena, _) = fill_arena(granting_rows(5, &returned));
    let (mut arena, allocator) = arena.without_allocator();
    assert_eq!(arena.len(), 4);
    assert_eq!(arena.allocate_anywhere(1), Err(ErrorKind::AllocationFailed));
    assert_eq!(arena.refused(), 1);
    assert_eq!(allocator.refused(), 0);

    let mut arena = arena.with_allocator(allocator);
    assert_eq!(arena.len(), 4);
    assert_eq!(arena.refused(), 0);
    assert_eq!(arena.allocate_anywhere(1), Ok((4, 0)));
    drop(arena);
    assert_eq!(returned.get(), 3_03_05_05_07_07_11_11_01_01);
}

#[test]
fn dropped_without_allocator_returns_nothing() {
    let returned = Cell::new(0);
    let (arena, _) = fill_arena(granting_rows(4, &returned));
    drop(arena.without_allocator());
    assert_eq!(returned.get(), 0);
}
