//! Makes edits, applies them to a message, and checks their outcomes.

use capnp_proved::capnp_arena::arena::{Allocator, BuilderArenaImpl};
use capnp_proved::capnp_edits::edit::{apply_all, Edit, Op, Step};
use capnp_proved::capnp_words::error::ErrorKind;
use capnp_proved::capnp_words::wire_pointer::StructSize;

/// Makes an edit: does `op` at the place that `path` leads to from the root.
pub fn edit<'a>(path: &'a [Step], op: Op<'a>) -> Edit<'a> {
    Edit { path, op }
}

/// The size of a struct.
pub fn size(data_words: u16, pointers: u16) -> StructSize {
    StructSize {
        data_words,
        pointers,
    }
}

/// Applies `edits` in order, and checks that their outcomes are `want`.
#[track_caller]
pub fn apply_and_check_outcomes(
    arena: &mut BuilderArenaImpl<impl Allocator>,
    edits: &[Edit<'_>],
    want: &[Option<ErrorKind>],
) {
    let mut outcomes = vec![None; edits.len()];
    apply_all(arena, edits, &mut outcomes);
    assert_eq!(outcomes, want);
}
