//! Tests of messages being built.

use capnp_proved::capnp_arena::arena::{
    copy_words, set_word, zero_words, BuilderArena, BuilderArenaImpl, HeapAllocator,
    OutputSegments, ReaderSegments,
};
use capnp_proved::support::alloc::Global;
use test_support::has_words;

/// Checks that the arena's output is the segments `want`, as a `SingleSegment` exactly if there is
/// one segment.
#[track_caller]
fn check_output(arena: &BuilderArenaImpl<HeapAllocator>, want: &[&[u8]]) {
    let output = arena.get_segments_for_output().unwrap();
    let segments: Vec<_> = (0..).map_while(|id| output.get_segment(id)).collect();
    assert_eq!(segments, want);
    assert_eq!(output.len(), want.len());
    assert_eq!(output.is_empty(), want.is_empty());
    let is_single = matches!(output, OutputSegments::SingleSegment(_));
    assert_eq!(is_single, want.len() == 1);
}

/// Checks the output of an arena without segments, with one, and with two.
#[test]
fn output_has_each_segment() {
    let mut arena = BuilderArenaImpl::new(Global, HeapAllocator::new(Global, 2));
    check_output(&arena, &[]);

    arena.allocate_segment(1).unwrap();
    assert_eq!(arena.allocate(0, 2), Some(0));
    set_word(&mut arena, 0, 1, 0x0807_0605_0403_0201);
    let words = "0000000000000000 0102030405060708";
    assert!(has_words(arena.as_reader(), words));
    check_output(
        &arena,
        &[b"\0\0\0\0\0\0\0\0\x01\x02\x03\x04\x05\x06\x07\x08"],
    );

    copy_words(&mut arena, 0, 0, b"99999999");
    zero_words(&mut arena, 0, 1, 1);
    arena.allocate_segment(0).unwrap();
    check_output(&arena, &[b"99999999\0\0\0\0\0\0\0\0", b""]);
}
