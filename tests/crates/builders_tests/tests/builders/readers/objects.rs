//! Tests calls that read the object that a pointer leads to: `Source::read_object`, `read_expected`
//! and `read_type` of `capnp_pointers`, which `capnp_readers` re-exports.

use super::messages::*;
use capnp_proved::capnp_readers::object::{Expected, Object, Place};
use capnp_proved::capnp_readers::source::Source;
use capnp_proved::capnp_words::read_limiter::ReadLimiter;
use capnp_proved::capnp_words::wire_pointer::{ElementSize, PointerType};

/// Returns a letter for the kind of an object, the word where it starts, and its number of words,
/// pointers or elements. For a capability, the last is its index.
fn kind_start_and_count(object: Object<'_>) -> (char, u32, u32) {
    match object {
        Object::Null => ('n', 0, 0),
        Object::Capability(index) => ('c', 0, index),
        Object::Struct { start, size } => ('s', start.at, size.total()),
        Object::Flat { start, count, .. } => ('f', start.at, count),
        Object::Pointers { start, count } => ('p', start.at, count),
        Object::Structs { start, count, .. } => ('l', start.at, count),
    }
}

#[test]
fn each_kind_is_read() {
    for (message, want) in [
        (NULL_ROOT, ('n', 0, 0)),
        (CAPABILITY, ('c', 0, 5)),
        (STRUCT_OF_DATA, ('s', 1, 3)),
        (FAR, ('s', 1, 1)),
        (NUMBERS, ('f', 1, 1)),
        (POINTERS, ('p', 1, 3)),
        (STRUCTS, ('l', 2, 1)),
    ] {
        let arena = message_arena(message);
        let mut lim = ReadLimiter::new(None);
        let pointer = root(&arena, &mut lim);
        let source: Source<'_, _> = pointer.source;
        let place: Place<'_> = pointer.place;
        let found = source.read_object(place, pointer.nesting_limit, &mut lim);
        assert_eq!(found.map(kind_start_and_count), Ok(want), "{message}");
    }
}

#[test]
fn expected_kinds_are_read() {
    for (message, expected, want) in [
        (NULL_ROOT, Expected::Struct, ('n', 0, 0)),
        (FAR, Expected::Struct, ('s', 1, 1)),
        (STRUCTS, Expected::List(ElementSize::Byte), ('l', 2, 1)),
        (TEXT, Expected::Text, ('f', 1, 8)),
        (TEXT, Expected::Data, ('f', 1, 8)),
    ] {
        let arena = message_arena(message);
        let mut lim = ReadLimiter::new(None);
        let pointer = root(&arena, &mut lim);
        let found = pointer
            .source
            .read_expected(expected, pointer.place, 1, &mut lim);
        assert_eq!(found.map(kind_start_and_count), Ok(want), "{message}");
    }
}

#[test]
fn read_type_follows_far_pointer() {
    let arena = message_arena(FAR_NUMBERS);
    let mut lim = ReadLimiter::new(Some(2));
    let pointer = root(&arena, &mut lim);
    let found = pointer.source.read_type(pointer.place, 0, &mut lim);
    assert_eq!(found, Ok(PointerType::List));
    assert_eq!((lim.left(), lim.followed()), (Some(0), 1));
}
