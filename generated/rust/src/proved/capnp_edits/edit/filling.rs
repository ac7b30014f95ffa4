//! Edits of a struct: writes to its data section, and copies of the content of another message's
//! struct.

use crate::proved::capnp_arena::arena::BuilderArena;
use crate::proved::capnp_builders::builders::places::struct_place;
use crate::proved::capnp_builders::builders::StructBuilder;
use crate::proved::capnp_edits::edit::copying::read_source_root;
use crate::proved::capnp_edits::edit::fields::put_field;
use crate::proved::capnp_edits::edit::path::has_words;
use crate::proved::capnp_edits::edit::tasks::StructChange;
use crate::proved::capnp_edits::edit::Source;
use crate::proved::capnp_in_place::existing::ExistingStruct;
use crate::proved::capnp_readers::readers::StructPlace;
use crate::proved::capnp_words::error::ErrorKind;

/// Returns where the struct `parent` is; `None` if the struct has no words.
///
/// # Preconditions
///
/// ```text
/// requires { IsStructInside (A.view arena.now).words parent }
/// ```
fn place_of_struct<A: BuilderArena>(arena: &A, parent: ExistingStruct) -> Option<StructPlace> {
    let end = u64::from(parent.start) + u64::from(parent.size.total());
    if parent.size.total() == 0 || !has_words(arena, parent.segment, end) {
        return None;
    }
    Some(struct_place(parent))
}

/// Replaces the data and the pointers of the struct `parent` by those of the struct that the root
/// of `source`, another message, leads to.
///
/// A null root counts as a struct without words: afterwards `parent` has only zeros and null
/// pointers. If the root leads to something else than a struct, or can't be read, refuses and
/// changes nothing. If the copy of a pointer is refused, the data and the pointers before that one
/// are copied, and that one and those after it are null. In the contract, `AtElement parent` is the
/// struct `parent`, whether it is an element of a list or a pointer leads to it.
///
/// # Preconditions
///
/// ```text
/// requires { IsStructInside (A.view arena.old).words parent }
/// ```
pub(in crate::proved::capnp_edits) fn copy_content<A: BuilderArena>(
    arena: &mut A,
    parent: ExistingStruct,
    source: Source<'_>,
) -> Result<(), ErrorKind> {
    let (root, mut lim) = read_source_root(source)?;
    let value = root.get_struct(&mut lim, None)?;
    match place_of_struct(&*arena, parent) {
        Some(place) => {
            let mut builder = StructBuilder { arena, place };
            builder.copy_content_from(&value, &mut lim)
        }
        None => Ok(()),
    }
}

/// Does `change` to the struct `parent`.
///
/// # Preconditions
///
/// ```text
/// requires inside { IsStructInside (A.view arena.old).words parent }
/// requires range { is_in_range (InStruct change) ≡ true }
/// ```
pub(in crate::proved::capnp_edits) fn change_struct<A: BuilderArena>(
    arena: &mut A,
    parent: ExistingStruct,
    change: StructChange<'_>,
) -> Result<(), ErrorKind> {
    match change {
        StructChange::Bits(number) => put_field(arena, parent, number),
        StructChange::Content(source) => copy_content(arena, parent, source),
    }
}
