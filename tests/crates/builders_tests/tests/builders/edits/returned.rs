//! Tests that each segment of an edited message is returned to the allocator once, with each
//! request for memory refused in turn.

use super::messages::{edit, size};
use capnp_proved::capnp_arena::arena::{
    BuilderArena, HeapAllocator, ReaderArena, ReaderArenaImpl, ReaderOptions, SegmentArray,
};
use capnp_proved::capnp_edits::edit::Op::{
    Clear, CopyContent, CopyFrom, InitStruct, SetField, SetList, SetStruct, SetText,
};
use capnp_proved::capnp_edits::edit::Step::Child;
use capnp_proved::capnp_edits::edit::{apply, apply_all, Edit, Source};
use capnp_proved::capnp_words::wire_pointer::ElementSize::EightBytes;
use capnp_proved::support::alloc::Global;
use std::cell::Cell;
use test_support::{arena_with_root, Granted, TestAllocator};

/// A message whose root is a struct with one data word, 7, and one pointer, which leads to the text
/// `a`.
const STRUCT: &[u8] = b"\0\0\0\0\x01\0\x01\0\x07\0\0\0\0\0\0\0\x01\0\0\0\x12\0\0\0a\0\0\0\0\0\0\0";

/// A message whose root is a list of two structs with one pointer each. The first pointer leads to
/// the text `a`; the second is null.
const LIST: &[u8] = b"\x01\0\0\0\x17\0\0\0\x08\0\0\0\0\0\x01\0\
    \x05\0\0\0\x12\0\0\0\0\0\0\0\0\0\0\0a\0\0\0\0\0\0\0";

/// What is returned for a value whose first object is a struct of two words after a landing pad,
/// if the memory of this object's segment, the row of this segment, the memory of the text's
/// segment, its row, and at last nothing is refused: for each segment in turn, two decimal digits
/// for its number of words, and two for its number of used words. A segment whose row is refused is
/// returned at once, unused.
const OF_STRUCT: [u64; 5] = [
    1_01,
    3_00_01_01,
    1_01_03_03,
    2_00_01_01_03_03,
    1_01_03_03_02_02,
];

/// The same for a first object that is a list of three words after a landing pad.
const OF_LIST: [u64; 5] = [
    1_01,
    4_00_01_01,
    1_01_04_04,
    2_00_01_01_04_04,
    1_01_04_04_02_02,
];

/// Applies `edits` to a message whose segments have one word or more, with an allocator that grants
/// the first `requests` requests for memory. Each segment takes two requests: for its memory, and
/// for its row, which is its entry in the arena's list. Checks that clearing the root afterwards
/// allocates no words and returns no segment. Then drops the arena, and checks that `segments` is
/// what was returned.
fn check_returned_segments(edits: &[Edit<'_>], requests: u64, segments: u64) {
    let returned = Cell::new(0);
    let heap = HeapAllocator::new(Global, 1);
    let allocator = TestAllocator::new(heap, Granted::Requests(requests), &returned);
    let mut arena = arena_with_root(allocator);
    apply_all(&mut arena, edits, &mut vec![None; edits.len()]);
    assert_eq!(arena.refused(), u64::from(requests < 6), "{segments}");

    let (size, early) = (arena.size_in_words(), returned.get());
    assert_eq!(apply(&mut arena, &edit(&[], Clear)), Ok(()));
    assert_eq!(arena.size_in_words(), size);
    assert_eq!(returned.get(), early);

    drop(arena);
    assert_eq!(returned.get(), segments);
}

/// Refuses first the memory of the first object's segment, then the row of this segment, then the
/// memory of the text's segment, then its row, and at last nothing. `segments` states, for each of
/// the five, what has to be returned.
fn check_each_refusal(edits: &[Edit<'_>], segments: [u64; 5]) {
    for (requests, want) in (2..).zip(segments) {
        check_returned_segments(edits, requests, want);
    }
}

/// Makes a struct with a number and a text.
#[test]
fn making_returns_each_segment() {
    let edits = [
        edit(&[], InitStruct(size(1, 1))),
        edit(&[], SetField(EightBytes, 0, 7)),
        edit(&[Child(0)], SetText(b"a")),
    ];
    check_each_refusal(&edits, OF_STRUCT);
}

/// Copies a struct with its text, and a list of structs with its text, from another message: the
/// value of the message's root, and the struct or the list that the root leads to.
#[test]
fn copying_returns_each_segment() {
    for (message, is_list, segments) in [(STRUCT, false, OF_STRUCT), (LIST, true, OF_LIST)] {
        let bytes = [message];
        let array = SegmentArray::new(&bytes).unwrap();
        let arena = &ReaderArenaImpl::new(array, ReaderOptions::default());
        let source = Source {
            arena,
            budget: None,
        };
        for canonicalize in [false, true] {
            check_each_refusal(&[edit(&[], CopyFrom(source, canonicalize))], segments);
            let op = if is_list {
                SetList(source, canonicalize)
            } else {
                SetStruct(source, canonicalize)
            };
            check_each_refusal(&[edit(&[], op)], segments);
        }
    }
}

/// Copies the content of a struct of another message over a struct that an edit has made.
#[test]
fn copying_content_returns_each_segment() {
    let bytes = [STRUCT];
    let array = SegmentArray::new(&bytes).unwrap();
    let arena = &ReaderArenaImpl::new(array, ReaderOptions::default());
    let source = Source {
        arena,
        budget: None,
    };
    let edits = [
        edit(&[], InitStruct(size(1, 1))),
        edit(&[], CopyContent(source)),
    ];
    check_each_refusal(&edits, OF_STRUCT);
}
