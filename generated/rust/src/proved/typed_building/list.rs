//! The elements of a list of a message being built.

use crate::proved::capnp_arena_traits::arena::BuilderArena;
pub use crate::proved::capnp_builders::fields::set_element;
use crate::proved::capnp_builders::{builders, fields};
use crate::proved::capnp_in_place::numbers;
use crate::proved::capnp_readers::readers::{ListPlace, StructPlace};
use crate::proved::capnp_words::error::ErrorKind;
use crate::proved::capnp_words::wire_pointer::{ElementSize, StructSize};

/// Returns the place of element `index` of a list of structs at least as large as `size`.
/// Preconditions: `list` is inside the message; the elements are structs with sections at least as
/// large as in `size`; `index` is below `list.count`.
///
/// # Preconditions
///
/// ```text
/// requires there { HasStructsPlace (A.view arena.now).words size list }
/// requires range { index < list.count }
/// ```
#[inline]
pub fn element<A: BuilderArena>(
    arena: &A,
    list: ListPlace,
    size: StructSize,
    index: u32,
) -> StructPlace {
    builders::element_place(list, index)
}

/// Writes element `index` of a list of bits. Preconditions: `list` is inside the message; the
/// elements are bits; `index` is below `list.count`.
///
/// # Preconditions
///
/// ```text
/// requires there { HasListPlace (A.view arena.old).words Bit list }
/// requires range { index < list.count }
/// ```
#[inline]
pub fn set_bool<A: BuilderArena>(arena: &mut A, list: ListPlace, index: u32, value: bool) {
    let bit = 8 * list.byte + u64::from(index);
    numbers::set_bit(arena, list.segment, bit, value);
}

/// Returns the place of element `index` of a list of pointers, as a struct with one pointer.
///
/// # Preconditions
///
/// ```text
/// requires there { HasListPlace (A.view arena.now).words Pointer list }
/// requires range { index < list.count }
/// ```
#[inline]
fn pointer_place<A: BuilderArena>(arena: &A, list: ListPlace, index: u32) -> StructPlace {
    builders::element_place(list, index)
}

/// Makes element `index` of a list of pointers lead to a new text: the bytes of `text`, followed by
/// a zero byte. Preconditions: `list` is inside the message; the elements are pointers; `index` is
/// below `list.count`; `text` has fewer than 2^29 - 1 bytes.
///
/// Refusals, if no segment has room: `AllocationFailed` if memory runs out;
/// `MessageTooLarge(usize::MAX)` if the message already has 4,294,967,295 segments. After a refusal
/// the element is null.
///
/// # Preconditions
///
/// ```text
/// requires there { HasListPlace (A.view arena.old).words Pointer list }
/// requires range { index < list.count }
/// requires few { length text.now + 1 < 2 ^ 29 }
/// ```
#[inline]
pub fn set_text<A: BuilderArena>(
    arena: &mut A,
    list: ListPlace,
    index: u32,
    text: &[u8],
) -> Result<(), ErrorKind> {
    let place = pointer_place(&*arena, list, index);
    fields::set_text(arena, place, 0, text)
}

/// Makes element `index` of a list of pointers lead to new data, the bytes of `contents`.
/// Preconditions: `list` is inside the message; the elements are pointers; `index` is below
/// `list.count`; `contents` has fewer than 2^29 bytes.
///
/// Refusals, if no segment has room: `AllocationFailed` if memory runs out;
/// `MessageTooLarge(usize::MAX)` if the message already has 4,294,967,295 segments. After a refusal
/// the element is null.
///
/// # Preconditions
///
/// ```text
/// requires there { HasListPlace (A.view arena.old).words Pointer list }
/// requires range { index < list.count }
/// requires few { length contents.now < 2 ^ 29 }
/// ```
#[inline]
pub fn set_data<A: BuilderArena>(
    arena: &mut A,
    list: ListPlace,
    index: u32,
    contents: &[u8],
) -> Result<(), ErrorKind> {
    let place = pointer_place(&*arena, list, index);
    fields::set_data(arena, place, 0, contents)
}

/// Makes element `index` of a list of pointers lead to a new list of `count` elements that aren't
/// structs, all zero or null, and returns the list's place. Preconditions: `list` is inside the
/// message; the elements are pointers; `index` is below `list.count`; `size` isn't
/// `InlineComposite`; `count` is below 2^29.
///
/// Refusals, if no segment has room: `AllocationFailed` if memory runs out;
/// `MessageTooLarge(usize::MAX)` if the message already has 4,294,967,295 segments. After a refusal
/// the element is null.
///
/// # Preconditions
///
/// ```text
/// requires there { HasListPlace (A.view arena.old).words Pointer list }
/// requires range { index < list.count }
/// requires few { count < 2 ^ 29 }
/// requires plain { size_number size ≤ 6 }
/// ```
#[inline]
pub fn init_list<A: BuilderArena>(
    arena: &mut A,
    list: ListPlace,
    index: u32,
    size: ElementSize,
    count: u32,
) -> Result<ListPlace, ErrorKind> {
    let place = pointer_place(&*arena, list, index);
    fields::init_list(arena, place, 0, size, count)
}

/// Makes element `index` of a list of pointers lead to a new list of `count` structs, all zero, and
/// returns the list's place. Preconditions: `list` is inside the message; the elements are
/// pointers; `index` is below `list.count`; `count` is below 2^30; `count` structs of `size` have
/// fewer than 2^29 words.
///
/// Refusals, if no segment has room: `AllocationFailed` if memory runs out;
/// `MessageTooLarge(usize::MAX)` if the message already has 4,294,967,295 segments. After a refusal
/// the element is null.
///
/// # Preconditions
///
/// ```text
/// requires there { HasListPlace (A.view arena.old).words Pointer list }
/// requires range { index < list.count }
/// requires few { count < 2 ^ 30 }
/// requires words { count * (size.data_words + size.pointers) < 2 ^ 29 }
/// ```
#[inline]
pub fn init_struct_list<A: BuilderArena>(
    arena: &mut A,
    list: ListPlace,
    index: u32,
    count: u32,
    size: StructSize,
) -> Result<ListPlace, ErrorKind> {
    let place = pointer_place(&*arena, list, index);
    fields::init_struct_list(arena, place, 0, count, size)
}
