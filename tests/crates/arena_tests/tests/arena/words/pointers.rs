//! Tests pointer words, which are written here as their eight bytes in a message.

use capnp_proved::capnp_words::wire_pointer::{
    offset_between, Bit, StructSize, Void, WirePointer, WirePointerKind,
};

const ONE_AND_TWO: StructSize = StructSize {
    data_words: 1,
    pointers: 2,
};

/// The offset of a pointer, checked to be from -2^29 to 2^29 - 1.
fn offset_of(pointer: WirePointer) -> i32 {
    let offset = pointer.offset();
    assert!((-536_870_912..=536_870_911).contains(&offset), "{offset}");
    offset
}

/// Rebuilds the word from its fields. A word of no known kind has none.
fn rebuild_from_fields(pointer: WirePointer) -> WirePointer {
    let position = pointer.far_position_in_segment();
    let segment = pointer.far_segment_id();
    match pointer.kind() {
        WirePointerKind::Struct => {
            WirePointer::new_struct(offset_of(pointer), pointer.struct_size())
        }
        WirePointerKind::List => WirePointer::new_list(
            offset_of(pointer),
            pointer.list_element_size(),
            pointer.list_element_count(),
        ),
        WirePointerKind::Far if pointer.is_double_far() => {
            WirePointer::new_double_far(position, segment)
        }
        WirePointerKind::Far => WirePointer::new_far(position, segment),
        WirePointerKind::Other if pointer.is_capability() => {
            WirePointer::new_capability(pointer.cap_index())
        }
        WirePointerKind::Other => pointer,
    }
}

/// The word whose bytes in a message are these digits.
fn pointer(digits: u64) -> WirePointer {
    WirePointer(digits.swap_bytes())
}

#[test]
fn pointer_words_have_their_bytes() {
    for (made, digits) in [
        (WirePointer::null(), 0),
        (WirePointer::empty_struct(), 0xfcff_ffff_0000_0000),
        (
            WirePointer::new_struct(1, ONE_AND_TWO),
            0x0400_0000_0100_0200,
        ),
        (
            WirePointer::new_struct(536_870_911, ONE_AND_TWO),
            0xfcff_ff7f_0100_0200,
        ),
        (
            WirePointer::new_struct(-536_870_912, ONE_AND_TWO),
            0x0000_0080_0100_0200,
        ),
        (WirePointer::new_tag(3, ONE_AND_TWO), 0x0c00_0000_0100_0200),
        (WirePointer::new_list(0, Bit, 11), 0x0100_0000_5900_0000),
        (
            WirePointer::new_list(-1, Void, 536_870_911),
            0xfdff_ffff_f8ff_ffff,
        ),
        (WirePointer::new_struct_list(0, 3), 0x0100_0000_1f00_0000),
        (WirePointer::new_far(3, 0), 0x1a00_0000_0000_0000),
        (
            WirePointer::new_far(536_870_911, u32::MAX),
            0xfaff_ffff_ffff_ffff,
        ),
        (WirePointer::new_double_far(0, 2), 0x0600_0000_0200_0000),
        (WirePointer::new_capability(5), 0x0300_0000_0500_0000),
    ] {
        assert_eq!(made, pointer(digits), "{digits:016x}");
        assert_eq!(rebuild_from_fields(made), made, "{digits:016x}");
    }
    let unknown = pointer(0x0700_0000_0500_0000);
    assert_eq!(rebuild_from_fields(unknown), unknown);
}

/// Each word is determined by its fields: words with up to two bits set or not set, and 100,000
/// others.
#[test]
fn pointer_words_are_rebuilt_from_fields() {
    let pairs = (0..64).flat_map(|i| (0..64).map(move |j| 1 << i | 1 << j));
    let others = (0..100_000u64).map(|i| i.wrapping_mul(0x9e37_79b9_7f4a_7c15));
    for word in pairs.chain(others).flat_map(|word: u64| [word, !word]) {
        assert_eq!(rebuild_from_fields(WirePointer(word)).0, word);
    }
}

#[test]
fn parts_of_pointers_are_read() {
    let pair = pointer(0x0400_0000_0100_0200);
    let list = pointer(0x0100_0000_1f00_0000);
    assert!(pair.is_positional() && !pair.is_null());
    assert_eq!(pair.offset(), 1);
    assert_eq!(pointer(0xfcff_ff7f_0100_0200).offset(), 536_870_911);
    assert_eq!(pointer(0x0000_0080_0100_0200).offset(), -536_870_912);
    assert_eq!(pair.struct_data_size(), 1);
    assert_eq!(pair.struct_ptr_count(), 2);
    assert_eq!(pair.struct_word_size(), 3);
    assert_eq!(pair.inline_composite_list_element_count(), 1);
    assert_eq!(list.list_inline_composite_word_count(), 3);
    assert_eq!(pair.target(0, 2), Some(2));
    assert_eq!(pair.target(0, 1), None);
    assert_eq!(WirePointer::empty_struct().target(7, 8), Some(7));
    assert_eq!(offset_between(0, 1), 0);
    assert_eq!(offset_between(9, 2), -8);
}
