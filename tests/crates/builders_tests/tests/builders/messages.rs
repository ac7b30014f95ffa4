//! Messages being built, and builders and readers at places in them.

use capnp_proved::capnp_arena::arena::{BuilderArenaImpl, HeapAllocator, ReaderArena};
use capnp_proved::capnp_readers::readers::{StructPlace, StructReader};
use capnp_proved::capnp_words::wire_pointer::StructSize;
use capnp_proved::support::alloc::Global;

/// One data word and one pointer.
pub const ONE_EACH: StructSize = StructSize {
    data_words: 1,
    pointers: 1,
};

/// A message in hex digits: its root is a struct with one data word, 7, and one pointer, which
/// leads to the text `a`.
pub const STRUCT: &str = "0000000001000100 0700000000000000 0100000012000000 6100000000000000";

/// The message `STRUCT` with each object in a segment of its own, after a landing pad.
pub const STRUCT_APART: &str = "0200000001000000, \
    0000000001000100 0700000000000000 0200000002000000, 0100000012000000 6100000000000000";

/// Makes an arena on the heap with one segment of at least `room` words, in which one word is
/// allocated: the root pointer.
pub fn heap_arena_with_root(room: u32) -> BuilderArenaImpl<HeapAllocator> {
    test_support::arena_with_root(HeapAllocator::new(Global, room))
}

/// Checks that both sections of the struct at `place` are inside its segment.
#[track_caller]
pub fn check_place(arena: &impl ReaderArena, place: StructPlace) {
    let words = arena.get_segment(place.segment).unwrap().len() as u64 / 8;
    assert!(place.byte + u64::from(place.bits).div_ceil(8) <= 8 * words);
    assert!(u64::from(place.pointers_at) + u64::from(place.pointers) <= words);
}

/// Makes a reader of a struct without pointers, whose data section is the `bits` bits from byte
/// `byte` of the first segment on.
pub fn struct_at<A: ReaderArena>(arena: &A, byte: u64, bits: u32) -> StructReader<'_, A> {
    let place = StructPlace {
        segment: 0,
        byte,
        bits,
        pointers_at: 0,
        pointers: 0,
    };
    check_place(arena, place);
    StructReader::at(arena, place, 64)
}
