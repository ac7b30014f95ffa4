//! Tests of edits in an arena without a root, and of an edited message that is read in place.

use super::messages::{apply_and_check_outcomes, edit, size};
use crate::messages::heap_arena_with_root;
use crate::readers::messages::root;
use capnp_proved::capnp_arena::arena::{BuilderArenaImpl, HeapAllocator, ReaderArena};
use capnp_proved::capnp_edits::edit::apply;
use capnp_proved::capnp_edits::edit::Op::{
    Clear, InitStruct, InitStructList, SetElement, SetField, SetText,
};
use capnp_proved::capnp_edits::edit::Step::{Child, Element};
use capnp_proved::capnp_readers::readers::MessageSize;
use capnp_proved::capnp_words::error::ErrorKind::NoSuchPlace;
use capnp_proved::capnp_words::read_limiter::ReadLimiter;
use capnp_proved::capnp_words::wire_pointer::ElementSize::EightBytes;
use capnp_proved::support::alloc::Global;

/// If the arena has no word for the root, an edit is refused with `NoSuchPlace`.
#[test]
fn edit_without_root_is_refused() {
    let clear = edit(&[], Clear);
    let mut arena = BuilderArenaImpl::new(Global, HeapAllocator::new(Global, 8));
    assert_eq!(apply(&mut arena, &clear), Err(NoSuchPlace));
    assert!(arena.is_empty());

    arena.allocate_segment(1).unwrap();
    assert_eq!(apply(&mut arena, &clear), Err(NoSuchPlace));
    assert_eq!(arena.get_segment(0), Ok([].as_slice()));
}

/// A list of two structs, made by edits and read in place, is canonical and has the expected size.
#[test]
fn edited_message_is_canonical() {
    let mut arena = heap_arena_with_root(1024);
    let edits = [
        edit(&[], InitStructList(2, size(1, 1))),
        edit(&[Element(0)], SetField(EightBytes, 0, 7)),
        edit(&[Element(1), Child(0)], SetText(b"a")),
        edit(&[], SetElement(EightBytes, 1, 9)),
        edit(&[Element(0), Child(0)], InitStruct(size(0, 0))),
    ];
    apply_and_check_outcomes(&mut arena, &edits, &[None; 5]);

    let mut lim = ReadLimiter::new(None);
    let root = root(&arena, &mut lim);
    let mut head = 1;
    assert_eq!(root.is_canonical(&mut lim, &mut head), Ok(true));
    assert_eq!(head, 7);
    let six_words = MessageSize {
        word_count: 6,
        cap_count: 0,
    };
    assert_eq!(root.total_size(&mut lim), Ok(six_words));
}
