//! Tests the fields of readers, the calls that no test case uses, and readers of other arenas.

use super::messages::*;
use capnp_proved::capnp_arena::arena::NullArena;
use capnp_proved::capnp_readers::readers::{
    ListReader, MessageSize, PointerReader, PrimitiveElement, StructReader, Target, DEFAULT_SEGMENT,
};
use capnp_proved::capnp_readers::source::Source;
use capnp_proved::capnp_words::error::ErrorKind;
use capnp_proved::capnp_words::read_limiter::ReadLimiter;
use capnp_proved::capnp_words::wire_pointer::ElementSize;

#[test]
fn fields_of_pointer_reader() {
    let arena = message_arena(NUMBERS);
    let pointer = root(&arena, &mut ReadLimiter::new(None));
    assert!(matches!(pointer.source, Source::Arena(_)));
    assert_eq!(pointer.place.segment, 0);
    assert_eq!(pointer.place.word().0, 0x0000_000d_0000_0001);
    assert_eq!(pointer.place.bytes.len(), 16);
}

#[test]
fn fields_of_struct_reader() {
    let arena = message_arena(TWO_CHILDREN);
    let StructReader {
        source,
        content,
        byte,
        bits,
        pointers,
        pointer_count,
        nesting_limit,
    } = root_struct(&arena, &mut ReadLimiter::new(None));
    assert!(matches!(source, Source::Arena(_)));
    assert!(content.is_empty());
    assert_eq!((byte, bits, pointers.at), (8, 0, 1));
    assert_eq!((pointer_count, nesting_limit), (2, 63));
}

#[test]
fn fields_of_list_reader() {
    let arena = message_arena(STRUCTS);
    let ListReader {
        source,
        content,
        start,
        element_size,
        struct_size,
        count,
        nesting_limit,
    } = root_list(&arena, &mut ReadLimiter::new(None));
    assert!(matches!(source, Source::Arena(_)));
    assert_eq!((content.len(), start.at), (16, 2));
    assert_eq!(element_size, ElementSize::InlineComposite);
    assert_eq!(struct_size.total(), 2);
    assert_eq!((count, nesting_limit), (1, 63));
}

/// Readers of every arena can be copied, also those of `NullArena`.
#[test]
fn readers_are_copied() {
    let arena = message_arena(STRUCTS);
    let mut lim = ReadLimiter::new(None);
    let pointer = root(&arena, &mut lim);
    let want = MessageSize {
        word_count: 3,
        cap_count: 1,
    };
    assert_eq!(pointer.total_size(&mut lim), Ok(want));
    let found = pointer.reborrow().next(&mut lim).unwrap();
    let same = found;
    for target in [found, same] {
        let Target::List(list) = target else {
            panic!("a list was expected");
        };
        assert_eq!(list.len(), 1);
        assert!(!list.is_empty());
    }

    let nothing: StructReader<'_, NullArena> = StructReader::new_default();
    let same = nothing;
    assert_eq!((nothing.pointer_count(), same.pointer_count()), (0, 0));
}

#[test]
fn null_arena_has_no_root() {
    let mut lim = ReadLimiter::new(Some(9));
    let refused = PointerReader::get_root_from_arena(&NullArena, &mut lim).err();
    assert_eq!(refused, Some(ErrorKind::TriedToReadFromNullArena));
    assert_eq!((lim.left(), lim.followed()), (Some(9), 0));
}

#[test]
fn default_needs_no_arena() {
    let words = [0; 16];
    let pointer = PointerReader::<NullArena>::from_default(&words).unwrap();
    assert!(matches!(pointer.source, Source::Default(_)));
    assert_eq!(pointer.place.segment, DEFAULT_SEGMENT);
    assert_eq!(pointer.place.length(), 2);
}

#[test]
fn element_sizes() {
    let sizes = [
        (<() as PrimitiveElement>::element_size(), ElementSize::Void),
        (bool::element_size(), ElementSize::Bit),
        (u8::element_size(), ElementSize::Byte),
        (i8::element_size(), ElementSize::Byte),
        (u16::element_size(), ElementSize::TwoBytes),
        (i16::element_size(), ElementSize::TwoBytes),
        (u32::element_size(), ElementSize::FourBytes),
        (i32::element_size(), ElementSize::FourBytes),
        (u64::element_size(), ElementSize::EightBytes),
        (i64::element_size(), ElementSize::EightBytes),
    ];
    for (size, want) in sizes {
        assert_eq!(size, want);
    }
}
