//! Tests which places and intervals are inside segments being read, and what is charged for reading
//! an interval.

use capnp_proved::capnp_arena::arena::{ReaderArena, ReaderArenaImpl, ReaderOptions, SegmentArray};
use capnp_proved::capnp_words::error::ErrorKind;
use capnp_proved::capnp_words::read_limiter::ReadLimiter;

const FAR: u32 = u32::MAX;

const OUTSIDE: ErrorKind = ErrorKind::MessageContainsOutOfBoundsPointer;

#[test]
fn offsets_at_the_ends() {
    let segments = [[0; 24].as_slice()];
    let array = SegmentArray::new(&segments).unwrap();
    let arena = ReaderArenaImpl::new(array, ReaderOptions::default());
    for (start, offset, want) in [
        (0, 0, Ok(0)),
        (0, 3, Ok(3)),
        (0, 4, Err(OUTSIDE)),
        (3, 0, Ok(3)),
        (3, -3, Ok(0)),
        (3, -4, Err(OUTSIDE)),
        (4, -1, Err(OUTSIDE)),
        (1, i32::MAX, Err(OUTSIDE)),
        (1, i32::MIN, Err(OUTSIDE)),
        (FAR, i32::MIN, Err(OUTSIDE)),
        (FAR, i32::MAX, Err(OUTSIDE)),
    ] {
        let found = arena.check_offset(0, start, offset);
        assert_eq!(found, want, "{start} and {offset}");
    }
}

#[test]
fn intervals_and_their_charge() {
    let segments = [[0; 24].as_slice()];
    let array = SegmentArray::new(&segments).unwrap();
    let arena = ReaderArenaImpl::new(array, ReaderOptions::default());
    for (start, size, want, left) in [
        (0, 2, Ok(()), 0),
        (3, 0, Ok(()), 2),
        (0, 3, Err(ErrorKind::ReadLimitExceeded), 2),
        (2, 2, Err(OUTSIDE), 2),
        (4, 0, Err(OUTSIDE), 2),
        (FAR, 1, Err(OUTSIDE), 2),
        (1, usize::MAX, Err(OUTSIDE), 2),
        (0, usize::MAX, Err(OUTSIDE), 2),
    ] {
        let mut lim = ReadLimiter::new(Some(2));
        let found = arena.contains_interval(0, start, size, &mut lim);
        assert_eq!(found, want, "{start} and {size}");
        assert_eq!(lim.left(), Some(left), "{start} and {size}");
    }
}
