//! Tests readers of structs and lists at places that the caller names.

use super::messages::*;
use capnp_proved::capnp_readers::readers::{ListPlace, ListReader, StructPlace, StructReader};
use capnp_proved::capnp_words::wire_pointer::{ElementSize, StructSize};

/// Reads a struct with a data section of 12 bits from byte 33 on, and word 5 as its pointer.
#[test]
fn struct_at_place_is_read() {
    let arena = message_arena(SHORTS);
    let place = StructPlace {
        segment: 0,
        byte: 33,
        bits: 12,
        pointers_at: 5,
        pointers: 1,
    };
    let found = StructReader::at(&arena, place, 3);
    assert_eq!(found.data_bytes().len(), 2);
    assert_eq!(found.get_data_field::<u8>(0), 0xaa);
    assert_eq!(found.get_data_field::<u8>(1), 0);
    assert!(found.get_bool_field(11));
    assert!(!found.get_bool_field(12));
    assert!(found.is_pointer_field_null(0));
}

/// The first bit after a data section of 13 bits is set, but isn't read.
#[test]
fn bits_after_the_section_are_zero() {
    let arena = message_arena(SHORTS);
    let place = StructPlace {
        segment: 0,
        byte: 33,
        bits: 13,
        pointers_at: 5,
        pointers: 0,
    };
    let found = StructReader::at(&arena, place, 3);
    assert_eq!(found.data_bytes(), [0xaa, 0xaa]);
    assert!(!found.get_bool_field(13));
    assert!(!found.get_bool_field(15));
    assert!(found.get_bool_field_mask(13, true));
}

/// Reads words 2 to 5 as two structs.
#[test]
fn list_at_place_is_read() {
    let arena = message_arena(SHORTS);
    let place = ListPlace {
        segment: 0,
        byte: 16,
        size: ElementSize::InlineComposite,
        struct_size: StructSize {
            data_words: 1,
            pointers: 1,
        },
        count: 2,
    };
    let found = ListReader::at(&arena, place, 3);
    assert_eq!(found.len(), 2);
    assert_eq!(found.data_bytes().len(), 32);
}
