//! Tests of copies that no test case makes: of a null reader, of a message being built, of data
//! sections that aren't whole words, and of a list that is too long.

use crate::edits::messages::{apply_and_check_outcomes, edit};
use crate::messages::{heap_arena_with_root, struct_at, ONE_EACH, STRUCT, STRUCT_APART};
use capnp_proved::capnp_arena::arena::{BuilderArena, NullArena, ReaderArena, ReaderOptions};
use capnp_proved::capnp_builders::builders::PointerBuilder;
use capnp_proved::capnp_edits::edit::Op::{InitStruct, SetField, SetText};
use capnp_proved::capnp_edits::edit::Step::Child;
use capnp_proved::capnp_readers::readers::{ListPlace, ListReader, PointerReader};
use capnp_proved::capnp_words::error::ErrorKind;
use capnp_proved::capnp_words::read_limiter::ReadLimiter;
use capnp_proved::capnp_words::wire_pointer::{ElementSize, StructSize};
use test_support::{arena_from_hex, has_words};

/// Copies a null reader to the root, and checks that the root is then null.
fn check_null_copy(arena: &mut impl BuilderArena, canonicalize: bool) {
    let mut lim = ReadLimiter::new(Some(1));
    let null: PointerReader<'_, NullArena> = PointerReader::new_default();
    let mut pointer = PointerBuilder::get_root(arena);
    assert_eq!(pointer.copy_from(null, &mut lim, canonicalize), Ok(()));
    let reader = pointer.into_reader();
    assert!(reader.is_null());
    assert_eq!(reader.nesting_limit, i32::MAX);
    assert_eq!((lim.left(), lim.followed()), (Some(1), 0));
}

/// A copy of a null reader is null, whether the root was null or a capability.
#[test]
fn copy_of_null_reader_is_null() {
    for canonicalize in [true, false] {
        let mut arena = heap_arena_with_root(8);
        check_null_copy(&mut arena, canonicalize);
        PointerBuilder::get_root(&mut arena).set_capability(5);
        check_null_copy(&mut arena, canonicalize);
        assert!(has_words(&arena, "0000000000000000"));
    }
}

/// Reads `source`, a struct with the number 7 and the text `a`, and copies it. Neither needs any
/// traversal limit, because reading a message that is being built isn't charged.
fn check_reading_and_copying(source: PointerReader<'_, impl ReaderArena>) {
    let mut lim = ReadLimiter::new(Some(0));
    let reader = source.get_struct(&mut lim, None).unwrap();
    assert_eq!(reader.get_data_field::<u64>(0), 7);
    let text = reader.get_pointer_field(0).get_text(&mut lim, None);
    assert_eq!(text, Ok(b"a".as_slice()));
    let mut copy = heap_arena_with_root(1024);
    let mut root = PointerBuilder::get_root(&mut copy);
    assert_eq!(root.copy_from(source, &mut lim, true), Ok(()));
    assert!(has_words(&copy, STRUCT));
}

/// Reading and copying from a message being built has the same results whether the message has one
/// segment or several, and isn't charged.
#[test]
fn reading_built_messages_is_free() {
    let edits = [
        edit(&[], InitStruct(ONE_EACH)),
        edit(&[], SetField(ElementSize::EightBytes, 0, 7)),
        edit(&[Child(0)], SetText(b"a")),
    ];
    for (room, want) in [(1024, STRUCT), (2, STRUCT_APART)] {
        let mut arena = heap_arena_with_root(room);
        apply_and_check_outcomes(&mut arena, &edits, &[None; 3]);
        assert!(has_words(&arena, want), "{room}");
        check_reading_and_copying(PointerBuilder::get_root(&mut arena).into_reader());
    }
}

/// Sets structs with a data section that is one byte, or ends inside a word or inside a byte. The
/// bits after the data section aren't copied.
#[test]
fn sections_of_part_words() {
    let message = "ffffffffffffffff 00000000000000ff 0100020000000000";
    let source = arena_from_hex(message, ReaderOptions::default());
    let one_byte = struct_at(&source, 16, 8);
    assert_eq!(one_byte.get_data_field::<u8>(0), 1);
    assert_eq!(one_byte.get_data_field::<u16>(0), 0);

    let empty = "fcffffff00000000";
    let two_words = "0000000002000000 ffffffffffffffff 0000000000000000";
    let two_full_bytes = "0000000002000000 ff00000000000000 ff00000000000000";
    let byte_and_bit = "0000000002000000 ff00000000000000 0100000000000000";
    for (byte, bits, canonicalize, want) in [
        (16, 8, false, "0000000001000000 0100000000000000"),
        (16, 8, true, "0000000001000000 0100000000000000"),
        (17, 8, false, "0000000001000000 0000000000000000"),
        (17, 8, true, empty),
        (18, 8, false, "0000000001000000 0200000000000000"),
        (0, 1, false, "0000000001000000 0100000000000000"),
        (3, 12, false, "0000000001000000 ff0f000000000000"),
        (0, 68, false, two_words),
        (0, 68, true, "0000000001000000 ffffffffffffffff"),
        (8, 56, true, empty),
        (7, 65, true, byte_and_bit),
        (7, 72, false, two_full_bytes),
        (0, 0, false, empty),
    ] {
        let value = struct_at(&source, byte, bits);
        let mut arena = heap_arena_with_root(1024);
        let mut lim = ReadLimiter::new(Some(1));
        let mut root = PointerBuilder::get_root(&mut arena);
        let result = root.set_struct(&value, &mut lim, canonicalize);
        assert_eq!(result, Ok(()), "{bits} bits from byte {byte} on");
        assert!(has_words(&arena, want), "{bits} bits from byte {byte} on");
    }
}

/// A list of as many elements as a list pointer can state is copied; a list of one more is refused.
#[test]
fn longest_list_is_copied() {
    let source = arena_from_hex("0000000000000000", ReaderOptions::default());
    let too_large = Err(ErrorKind::MessageTooLarge(usize::MAX));
    for (count, outcome, want) in [
        (536_870_911, Ok(()), "01000000f8ffffff"),
        (536_870_912, too_large, "0000000000000000"),
    ] {
        let place = ListPlace {
            segment: 0,
            byte: 0,
            size: ElementSize::Void,
            struct_size: StructSize {
                data_words: 0,
                pointers: 0,
            },
            count,
        };
        let list = ListReader::at(&source, place, 64);
        let mut arena = heap_arena_with_root(1024);
        let mut lim = ReadLimiter::new(Some(0));
        let result = PointerBuilder::get_root(&mut arena).set_list(&list, &mut lim, false);
        assert_eq!(result, outcome, "{count} elements");
        assert!(has_words(&arena, want), "{count} elements");
    }
}
