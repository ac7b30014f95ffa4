//! Does edits at a pointer.

use crate::proved::capnp_arena::arena::BuilderArena;
use crate::proved::capnp_builders::builders::PointerBuilder;
use crate::proved::capnp_edits::edit::copying::copy_root;
use crate::proved::capnp_edits::edit::elements::edit_part;
use crate::proved::capnp_edits::edit::filling::change_struct;
use crate::proved::capnp_edits::edit::found::find_value;
use crate::proved::capnp_edits::edit::tasks::{NewObject, Task};
use crate::proved::capnp_in_place::existing;
use crate::proved::capnp_readers::readers::PointerPlace;
use crate::proved::capnp_words::error::ErrorKind;
use crate::proved::capnp_words::wire_pointer::ElementSize;

/// Returns `outcome` without its value.
pub(in crate::proved::capnp_edits) fn discard_value<T>(
    outcome: Result<T, ErrorKind>,
) -> Result<(), ErrorKind> {
    outcome?;
    Ok(())
}

/// Makes `pointer` lead to the new object `object`.
///
/// # Preconditions
///
/// ```text
/// requires there { IsThere (built A.view pointer.old) }
/// requires range { is_in_range (Make object) ≡ true }
/// ```
fn init_object<A: BuilderArena>(
    pointer: &mut PointerBuilder<'_, A>,
    object: NewObject<'_>,
) -> Result<(), ErrorKind> {
    match object {
        NewObject::ZeroStruct(size) => discard_value(pointer.init_struct_place(size)),
        NewObject::ZeroList(size, count) => discard_value(pointer.init_list_place(size, count)),
        NewObject::ZeroStructs(count, size) => {
            discard_value(pointer.init_struct_list_place(count, size))
        }
        NewObject::ZeroText(size) => {
            discard_value(pointer.init_list_place(ElementSize::Byte, size + 1))
        }
        NewObject::Text(bytes) => pointer.set_text(bytes),
        NewObject::Data(bytes) => pointer.set_data(bytes),
    }
}

/// Makes `pointer` lead to the capability with the index `capability`; if `capability` is `None`,
/// makes `pointer` null.
///
/// # Preconditions
///
/// ```text
/// requires { IsThere (built A.view pointer.old) }
/// ```
fn set_capability_or_null<A: BuilderArena>(
    pointer: &mut PointerBuilder<'_, A>,
    capability: Option<u32>,
) {
    match capability {
        Some(index) => pointer.set_capability(index),
        None => pointer.clear(),
    }
}

/// Does `task` at the pointer at `place`.
///
/// # Preconditions
///
/// ```text
/// requires there { IsPlace (A.view arena.old).words place.segment place.word }
/// requires range { is_in_range task ≡ true }
/// ```
pub(in crate::proved::capnp_edits) fn edit_pointer<A: BuilderArena>(
    arena: &mut A,
    place: PointerPlace,
    task: Task<'_>,
) -> Result<(), ErrorKind> {
    let mut pointer = PointerBuilder {
        arena,
        segment: place.segment,
        at: place.word,
    };
    match task {
        Task::Make(object) => init_object(&mut pointer, object),
        Task::Point(capability) => {
            set_capability_or_null(&mut pointer, capability);
            Ok(())
        }
        Task::InStruct(change) => {
            match existing::get_struct(&*pointer.arena, place.segment, place.word) {
                Some(parent) => change_struct(pointer.arena, parent, change),
                None => Err(ErrorKind::NoSuchPlace),
            }
        }
        Task::Write(part) => edit_part(pointer.arena, place, part),
        Task::Search(sought, default) => find_value(&mut pointer, sought, default),
        Task::CopyRoot(copying) => copy_root(&mut pointer, copying),
    }
}
