//! Example messages in hex digits, and functions that read their roots.

use capnp_proved::capnp_arena::arena::{ReaderArena, ReaderArenaImpl, ReaderOptions};
use capnp_proved::capnp_readers::readers::{ListReader, PointerReader, StructReader, Target};
use capnp_proved::capnp_words::read_limiter::ReadLimiter;
use test_support::{arena_from_hex, OwnedSegments};

pub const NULL_ROOT: &str = "0000000000000000";

pub const STRUCT_OF_DATA: &str =
    "0000000003000000 1111111111111111 0000000000000080 0000000000000000";

pub const CAPABILITY: &str = "0300000005000000";

pub const TWO_CHILDREN: &str =
    "0000000000000200 0400000001000000 fcffffff00000000 eeeeeeeeeeeeeeee";

pub const FAR: &str = "0200000001000000, 0000000001000000 0001020304050607";

/// A message whose root is a far pointer to a list.
pub const FAR_NUMBERS: &str = "0200000001000000, 010000000d000000 0102030405060708";

pub const STRUCTS: &str = "0100000017000000 0400000001000100 0900000000000000 0300000007000000";

pub const SHORTS: &str = "0100000027000000 0800000001000100 0000000000000000 0000000000000000 \
    aaaaaaaaaaaaaaaa 0000000000000000";

pub const NUMBERS: &str = "010000000d000000 0102030405060708";

pub const TEXT: &str = "0100000042000000 6162636465666700";

pub const POINTERS: &str = "010000001e000000 0000000000000000 0400000002000000 0000000000000000 \
    0900000000000000 0000000000000000";

/// Makes an arena of the message that the hex digits `text` state, with the default options for
/// reading.
pub fn message_arena(text: &str) -> ReaderArenaImpl<OwnedSegments> {
    arena_from_hex(text, ReaderOptions::default())
}

pub fn root<'a, A: ReaderArena>(arena: &'a A, lim: &mut ReadLimiter) -> PointerReader<'a, A> {
    PointerReader::get_root_from_arena(arena, lim).unwrap()
}

/// Returns the struct that the root pointer leads to.
pub fn root_struct<'a, A: ReaderArena>(arena: &'a A, lim: &mut ReadLimiter) -> StructReader<'a, A> {
    match root(arena, lim).next(lim).unwrap() {
        Target::Struct(found) => found,
        _ => panic!("a struct was expected"),
    }
}

/// Returns the list that the root pointer leads to.
pub fn root_list<'a, A: ReaderArena>(arena: &'a A, lim: &mut ReadLimiter) -> ListReader<'a, A> {
    match root(arena, lim).next(lim).unwrap() {
        Target::List(found) => found,
        _ => panic!("a list was expected"),
    }
}
