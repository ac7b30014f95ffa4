//! Tests what calls of builders request from the allocator: nothing, if the words that they need
//! fit in the segment. Also makes each call that no test case (`tests/cases`) makes.

use crate::messages::{check_place, ONE_EACH};
use capnp_proved::capnp_arena::arena::{
    BuilderArena, BuilderArenaImpl, HeapAllocator, ReaderArena,
};
use capnp_proved::capnp_builders::builders::{PointerBuilder, PrimitiveElement, StructBuilder};
use capnp_proved::capnp_readers::readers::StructReader;
use capnp_proved::capnp_words::read_limiter::ReadLimiter;
use capnp_proved::capnp_words::wire_pointer::{ElementSize, StructSize};
use capnp_proved::support::alloc::Global;
use test_support::{arena_with_root, has_words, NotingAllocator, Request};

/// Makes a message of one segment, with a word for the root and room for 63 more words.
fn noting_arena() -> BuilderArenaImpl<NotingAllocator> {
    arena_with_root(NotingAllocator::new(HeapAllocator::new(Global, 64)))
}

/// Checks that nothing was requested except the segment and its row, which is its entry in the
/// arena's list of segments.
#[track_caller]
fn check_only_segment_requested(arena: BuilderArenaImpl<NotingAllocator>) {
    let asked = [Request::Segment(1), Request::Row];
    assert_eq!(arena.into_allocator().requests(), asked);
}

/// Clears the root pointer, then makes it a capability, then makes it lead to a struct without
/// words.
fn write_pointer(arena: &mut impl BuilderArena) {
    let mut pointer = PointerBuilder::get_root(arena);
    pointer.clear();
    assert!(pointer.is_null());
    pointer.set_capability(3);
    assert_eq!(pointer.get_capability(), Ok(3));
    let size = StructSize {
        data_words: 0,
        pointers: 0,
    };
    let place = pointer.init_struct_place(size).unwrap();
    check_place(pointer.arena, place);
    assert!(!pointer.is_null());
}

fn write_data(builder: &mut StructBuilder<'_, impl BuilderArena>) {
    assert_eq!(builder.place.bits, 64);
    builder.set_data_field(0, 7u64);
    builder.set_bool_field(8, true);
    assert_eq!(builder.get_data_field::<u8>(0), 7);
    assert!(builder.get_bool_field(8));
    assert!(!builder.get_bool_field(9));
}

fn write_text(builder: &mut StructBuilder<'_, impl BuilderArena>) {
    assert_eq!(builder.place.pointers, 1);
    assert!(builder.is_pointer_field_null(0));
    let mut field = builder.reborrow().get_pointer_field(0);
    assert_eq!(field.reborrow().set_text(b"a"), Ok(()));
}

fn read_fields(reader: StructReader<'_, impl ReaderArena>) {
    assert_eq!(reader.nesting_limit, i32::MAX);
    assert_eq!(reader.get_data_field::<u8>(0), 7);
    let mut lim = ReadLimiter::new(Some(0));
    let text = reader.get_pointer_field(0).get_text(&mut lim, None);
    assert_eq!(text, Ok(b"a".as_slice()));
}

/// Makes a struct, and writes and reads its fields.
fn check_fields(arena: &mut impl BuilderArena) {
    let mut pointer = PointerBuilder::get_root(arena);
    let place = pointer.init_struct_place(ONE_EACH).unwrap();
    let mut builder = pointer.into_struct(place);
    check_place(builder.arena, builder.place);
    write_data(&mut builder);
    write_text(&mut builder);
    check_place(builder.arena, builder.place);
    read_fields(builder.into_reader());
}

/// Makes a list, and writes and reads its elements.
fn check_elements(arena: &mut impl BuilderArena) {
    let mut pointer = PointerBuilder::get_root(arena);
    let place = pointer.init_list_place(ElementSize::TwoBytes, 4).unwrap();
    let mut list = pointer.into_list(place);
    assert_eq!(list.reborrow().len(), 4);
    assert!(!list.is_empty());
    assert_eq!(list.get_element_size(), ElementSize::TwoBytes);
    i16::set(&mut list, 3, -2);
    let reader = list.into_reader();
    assert_eq!(reader.nesting_limit, i32::MAX);
    let elements = [0, 1, 2, 3].map(|index| i16::get(&reader, index));
    assert_eq!(elements, [0, 0, 0, -2]);
}

#[test]
fn objects_in_room_request_nothing() {
    let mut arena = noting_arena();
    write_pointer(&mut arena);
    check_fields(&mut arena);
    check_elements(&mut arena);
    check_only_segment_requested(arena);
}

/// `bytes_mut` lends the bytes of the data that `get_data_place` finds, and what is written there
/// is written in the message.
#[test]
fn bytes_mut_lends_the_data() {
    let mut arena = noting_arena();
    let mut pointer = PointerBuilder::get_root(&mut arena);
    pointer.set_data(b"abc\0x").unwrap();
    let place = pointer.get_data_place(None).unwrap();
    let bytes = pointer.bytes_mut(place);
    assert_eq!(bytes, b"abc\0x");
    bytes[0] = b'y';
    let want = "010000002a000000 7962630078000000";
    assert!(has_words(&arena, want));
    check_only_segment_requested(arena);
}
