//! Tests of calls at the places of structs and lists, which no case reaches.

use crate::messages::{check_place, heap_arena_with_root};
use capnp_proved::capnp_arena::arena::BuilderArena;
use capnp_proved::capnp_builders::fields;
use capnp_proved::capnp_readers::readers::StructPlace;
use capnp_proved::capnp_words::wire_pointer::{ElementSize, StructSize};
use test_support::has_words;

/// Makes the root lead to a struct with two pointers. Its data section starts at a whole word.
fn init_root(arena: &mut impl BuilderArena, data_words: u16) -> StructPlace {
    let size = StructSize {
        data_words,
        pointers: 2,
    };
    let place = fields::init_root(arena, size).unwrap();
    check_place(arena, place);
    assert_eq!(place.byte % 8, 0);
    assert_eq!(place.bits, 64 * u32::from(data_words));
    assert_eq!(place.pointers, 2);
    place
}

/// Makes a struct of a number and a bit, of a list of numbers, and of a struct.
#[test]
fn numbers_at_their_places() {
    let mut arena = heap_arena_with_root(1024);
    let place = init_root(&mut arena, 1);
    fields::set_number(&mut arena, place, 0, 7u32);
    fields::set_bool(&mut arena, place, 32, true);

    let numbers = fields::init_list(&mut arena, place, 0, ElementSize::TwoBytes, 2).unwrap();
    fields::set_element(&mut arena, numbers, 1, 5u16);

    let one_word = StructSize {
        data_words: 1,
        pointers: 0,
    };
    let inner = fields::init_struct(&mut arena, place, 1, one_word).unwrap();
    check_place(&arena, inner);
    fields::set_number(&mut arena, inner, 0, 9u64);

    let want = "0000000001000200 0700000001000000 0500000013000000 0400000001000000 \
        0000050000000000 0900000000000000";
    assert!(has_words(&arena, want));
}

/// Makes a struct of a text and of data.
#[test]
fn bytes_at_their_places() {
    let mut arena = heap_arena_with_root(1024);
    let place = init_root(&mut arena, 0);
    fields::set_text(&mut arena, place, 0, b"a").unwrap();
    fields::set_data(&mut arena, place, 1, b"b").unwrap();
    let want = "0000000000000200 0500000012000000 050000000a000000 6100000000000000 \
        6200000000000000";
    assert!(has_words(&arena, want));
}
