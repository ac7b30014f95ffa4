//! Edits that copy the value of another message's root.

use crate::proved::capnp_arena::arena::{BuilderArena, ReaderArena, ReaderArenaImpl, SegmentArray};
use crate::proved::capnp_builders::builders::PointerBuilder;
use crate::proved::capnp_edits::edit::Source;
use crate::proved::capnp_readers::readers::PointerReader;
use crate::proved::capnp_words::error::ErrorKind;
use crate::proved::capnp_words::read_limiter::ReadLimiter;
use crate::proved::capnp_words::wire_pointer::ElementSize;

/// What the root of a source has to lead to.
#[derive(Clone, Copy)]
pub(in crate::proved::capnp_edits) enum Wanted {
    /// Anything.
    Value,
    /// A struct.
    Struct,
    /// A list.
    List,
}

/// A copy to make of the value of another message's root.
#[derive(Clone, Copy)]
pub(in crate::proved::capnp_edits) struct Copying<'a> {
    /// The other message.
    pub(in crate::proved::capnp_edits) source: Source<'a>,
    /// What the root of `source` has to lead to.
    pub(in crate::proved::capnp_edits) wanted: Wanted,
    /// Whether the copy is in canonical form.
    pub(in crate::proved::capnp_edits) canonicalize: bool,
}

/// A reader of a pointer in another message.
pub(in crate::proved::capnp_edits) type SourceReader<'a> =
    PointerReader<'a, ReaderArenaImpl<SegmentArray<'a>>>;

/// Returns the root of another message, and the limiter for reading that message, which is already
/// charged for the root's word.
pub(in crate::proved::capnp_edits) fn read_source_root<'a>(
    source: Source<'a>,
) -> Result<(SourceReader<'a>, ReadLimiter), ErrorKind> {
    let mut lim = ReadLimiter::new(source.budget);
    let root = PointerReader::get_root_from_arena(source.arena, &mut lim)?;
    Ok((root, lim))
}

/// Makes the copy that `copying` describes, at `pointer`.
///
/// # Preconditions
///
/// ```text
/// requires { IsThere (built A.view pointer.old) }
/// ```
pub(in crate::proved::capnp_edits) fn copy_root<A: BuilderArena>(
    pointer: &mut PointerBuilder<'_, A>,
    copying: Copying<'_>,
) -> Result<(), ErrorKind> {
    let (root, mut lim) = read_source_root(copying.source)?;
    match copying.wanted {
        Wanted::Value => pointer.copy_from(root, &mut lim, copying.canonicalize),
        Wanted::Struct => {
            let value = root.get_struct(&mut lim, None)?;
            pointer.set_struct(&value, &mut lim, copying.canonicalize)
        }
        Wanted::List => {
            let list = root.get_list(&mut lim, ElementSize::Void, None)?;
            pointer.set_list(&list, &mut lim, copying.canonicalize)
        }
    }
}
