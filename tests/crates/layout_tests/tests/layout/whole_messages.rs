//! Tests of calls on whole messages that no line of `tests/cases/` makes: they read the root, make
//! canonical copies, test for canonical form, and read words without a frame.

use capnp_proved::capnp_layout::arena::{
    Allocator, BuilderArenaImpl, HeapAllocator, OutputSegments, ReaderOptions, ReaderSegments,
};
use capnp_proved::capnp_layout::devices::MemoryInput;
use capnp_proved::capnp_layout::error::ErrorKind;
use capnp_proved::capnp_layout::framing::{
    canonicalize, canonicalize_pointer, check, is_canonical_message, read_root, read_segment_into,
    validate_root, FrameError, OwnedSegments,
};
use capnp_proved::capnp_layout::read_limiter::ReadLimiter;
use capnp_proved::support::alloc::Global;
use test_support::{arena_from_hex, decode_hex};

/// A message whose root leads to a struct of three data words; the last of these words is zero.
const LONG: &str = "0000000003000000 1111111111111111 0000000000000080 0000000000000000";

/// The canonical words of the value of `LONG`.
const CANONICAL: &str = "0000000002000000 1111111111111111 0000000000000080";

/// Checks that the message `made` has one segment, and that its words are `CANONICAL`.
#[track_caller]
fn check_is_canonical(made: &BuilderArenaImpl<impl Allocator>) {
    let Ok(OutputSegments::SingleSegment(segment)) = made.get_segments_for_output() else {
        panic!("one segment was expected");
    };
    assert_eq!(segment, decode_hex(CANONICAL).unwrap());
}

fn heap() -> HeapAllocator {
    HeapAllocator::new(Global, 0)
}

/// Making a canonical copy charges the words of the source's struct once.
#[test]
fn pointer_copies_are_charged_once() {
    let source = arena_from_hex(LONG, ReaderOptions::default());
    let mut lim = ReadLimiter::new(Some(8));
    let root = read_root(&source, &mut lim).unwrap();
    for left in [4, 1] {
        match canonicalize_pointer(Global, heap(), root, &mut lim) {
            Ok(made) => check_is_canonical(&made),
            Err((kind, _)) => panic!("a copy was expected: {kind}"),
        }
        assert_eq!(lim.left(), Some(left));
    }
}

/// To copy a whole message costs one word for the root, and the words of the struct.
#[test]
fn whole_copies_are_charged_once() {
    let source = arena_from_hex(LONG, ReaderOptions::default());
    match canonicalize(Global, heap(), &source, Some(4)) {
        Ok(made) => check_is_canonical(&made),
        Err((kind, _)) => panic!("a copy was expected: {kind}"),
    }
    match canonicalize(Global, heap(), &source, Some(3)) {
        Ok(_) => panic!("a refusal was expected"),
        Err((kind, _)) => assert_eq!(kind, ErrorKind::ReadLimitExceeded),
    }
}

/// The test for canonical form charges one word for the root, and the words of the struct. For a
/// message of several segments it returns `false`, and charges nothing.
#[test]
fn canonical_test_is_charged_once() {
    let two_segments = "0000000000000000,0000000000000000";
    for (text, budget, want) in [
        (CANONICAL, 3, Ok(true)),
        (CANONICAL, 2, Err(ErrorKind::ReadLimitExceeded)),
        (LONG, 8, Ok(false)),
        (two_segments, 0, Ok(false)),
    ] {
        let arena = arena_from_hex(text, ReaderOptions::default());
        let mut lim = ReadLimiter::new(Some(budget));
        assert_eq!(is_canonical_message(&arena, &mut lim), want, "{text}");
        let found = check(&arena, Some(budget)).map(|fault| fault.is_none());
        assert_eq!(found, want, "{text}");
    }
}

/// Two words are read as the only segment of a message. They are refused if the limit is one word.
/// Two words and a half are refused as cut short, and leave no segment.
#[test]
fn raw_words_are_read_as_one_segment() {
    let bytes = [7; 20];
    let mut into = OwnedSegments::new(Global);
    let mut input = MemoryInput::new(&bytes[..16]);
    assert_eq!(read_segment_into(&mut input, 2, &mut into), Ok(()));
    assert_eq!(into.len(), 1);
    assert_eq!(into.get_segment(0), Some(&bytes[..16]));

    let mut input = MemoryInput::new(&bytes[..16]);
    let many = read_segment_into(&mut input, 1, &mut into);
    assert_eq!(many, Err(FrameError::MessageTooLong(2)));

    let mut input = MemoryInput::new(&bytes);
    let cut = read_segment_into(&mut input, 3, &mut into);
    assert_eq!(cut, Err(FrameError::Truncated));
    assert!(into.is_empty());
}

const NULL: &str = "0000000000000000";

const CAPABILITY: &str = "0300000002000000";

/// A struct of one data word and a pointer to a list of two bytes.
const NAMED: &str = "0000000001000100 0500000000000000 0100000012000000 6162000000000000";

/// A struct of two pointers to the same struct of one data word.
const SHARED: &str = "0000000000000200 0400000001000000 0000000001000000 0700000000000000";

/// A list of three elements without width.
const VOIDS: &str = "0100000018000000";

/// A pointer to a struct that would be after the end of the segment.
const CUT: &str = "0000000001000000";

/// A message is validated within a nesting limit and a number of words, or refused. In the answers
/// are the depth, the words and the capabilities of its value, and the words left, all counted by
/// hand.
#[test]
fn messages_are_validated_within_limits() {
    let outside = Err(ErrorKind::MessageContainsOutOfBoundsPointer);
    let too_deep = Err(ErrorKind::MessageIsTooDeeplyNestedOrContainsCycles);
    let exceeded = Err(ErrorKind::ReadLimitExceeded);
    for (text, nesting_limit, budget, want, left) in [
        ("", 64, 9, outside, 9),
        (NULL, 0, 0, exceeded, 0),
        (NULL, 0, 1, Ok((0, 0, 0)), 0),
        (CAPABILITY, 0, 1, Ok((0, 0, 1)), 0),
        (NAMED, 2, 4, Ok((2, 3, 0)), 0),
        (NAMED, 2, 3, exceeded, 0),
        (NAMED, 1, 4, too_deep, 1),
        (SHARED, 2, 6, Ok((2, 4, 0)), 1),
        (SHARED, 2, 4, exceeded, 0),
        (VOIDS, 1, 4, Ok((1, 0, 0)), 0),
        (VOIDS, 1, 3, exceeded, 2),
        (CUT, 64, 9, outside, 8),
    ] {
        let options = ReaderOptions {
            nesting_limit,
            ..ReaderOptions::default()
        };
        let arena = arena_from_hex(text, options);
        let mut lim = ReadLimiter::new(Some(budget));
        let found = validate_root(&arena, &mut lim)
            .map(|extent| (extent.depth, extent.words, extent.capabilities));
        assert_eq!(found, want, "{text}");
        assert_eq!(lim.left(), Some(left), "{text}");
    }
}
