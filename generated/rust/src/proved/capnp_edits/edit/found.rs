//! Edits that look for a struct, a list, a text or data.

use crate::proved::capnp_arena::arena::BuilderArena;
use crate::proved::capnp_builders::builders::PointerBuilder;
use crate::proved::capnp_edits::edit::pointer::discard_value;
use crate::proved::capnp_edits::edit::tasks::Sought;
use crate::proved::capnp_words::error::ErrorKind;

/// Looks for `sought` at `pointer`, by the call of `PointerBuilder` that finds such a value.
///
/// # Preconditions
///
/// ```text
/// requires there { IsThere (built A.view pointer.old) }
/// requires range { is_in_range (Search sought default) ≡ true }
/// ```
pub(in crate::proved::capnp_edits) fn find_value<A: BuilderArena>(
    pointer: &mut PointerBuilder<'_, A>,
    sought: Sought,
    default: Option<&[u8]>,
) -> Result<(), ErrorKind> {
    match sought {
        Sought::Struct(size) => discard_value(pointer.get_struct_place(size, default)),
        Sought::List(size) => discard_value(pointer.get_list_place(size, default)),
        Sought::StructList(size) => discard_value(pointer.get_struct_list_place(size, default)),
        Sought::Text => discard_value(pointer.get_text_place(default)),
        Sought::Data => discard_value(pointer.get_data_place(default)),
    }
}
