//! Makes a pointer lead to a new object (encoding specification, "Structs", "Lists" and
//! "Capabilities (Interfaces)"). First zeroes the object that the pointer led to, with all objects
//! below it and their landing pads; these words stay allocated.

use crate::proved::capnp_allocation::making::{make_list, make_struct, make_struct_list};
use crate::proved::capnp_allocation::zeroing::zero_object;
use crate::proved::capnp_arena_traits::arena::{set_word, BuilderArena, WordPlace};
use crate::proved::capnp_words::error::ErrorKind;
use crate::proved::capnp_words::wire_pointer::{ElementSize, StructSize, WirePointer};

/// Turns the pointer at `at` of segment `id` into the capability with index `index`. Precondition:
/// word `at` of segment `id` is allocated.
///
/// # Preconditions
///
/// ```text
/// requires place { IsPlace (A.view arena.old).words id at }
/// ```
#[inline]
pub fn set_capability<A: BuilderArena>(arena: &mut A, id: u32, at: u32, index: u32) {
    zero_object(arena, id, at);
    set_word(arena, id, at, WirePointer::new_capability(index).0);
}

/// Makes the pointer at `at` of segment `id` lead to a new struct, all zero. A struct without
/// sections takes no words. Precondition: word `at` of segment `id` is allocated.
///
/// Refusals: `AllocationFailed` if memory runs out; `MessageTooLarge` if the object needs a new
/// segment, and the object and a landing pad have more than 536,870,911 words, or the message can't
/// have more segments. After a refusal the pointer is null.
///
/// # Preconditions
///
/// ```text
/// requires place { IsPlace (A.view arena.old).words id at }
/// ```
#[inline(always)]
pub fn init_struct<A: BuilderArena>(
    arena: &mut A,
    id: u32,
    at: u32,
    size: StructSize,
) -> Result<WordPlace, ErrorKind> {
    zero_object(arena, id, at);
    make_struct(arena, id, at, size)
}

/// Makes the pointer at `at` of segment `id` lead to a new list of `count` elements that aren't
/// structs, all zero or null. Preconditions: word `at` of segment `id` is allocated; `count` is
/// below 2^29; `size` isn't `InlineComposite`.
///
/// Refusals: `AllocationFailed` if memory runs out; `MessageTooLarge` if the object needs a new
/// segment, and the object and a landing pad have more than 536,870,911 words, or the message can't
/// have more segments. After a refusal the pointer is null.
///
/// # Preconditions
///
/// ```text
/// requires place { IsPlace (A.view arena.old).words id at }
/// requires few { count < 2 ^ 29 }
/// requires plain { size_number size ≤ 6 }
/// ```
#[inline(always)]
pub fn init_list<A: BuilderArena>(
    arena: &mut A,
    id: u32,
    at: u32,
    size: ElementSize,
    count: u32,
) -> Result<WordPlace, ErrorKind> {
    zero_object(arena, id, at);
    make_list(arena, id, at, size, count)
}

/// Makes the pointer at `at` of segment `id` lead to a new list of `count` structs, all zero. The
/// first word of the list is the tag. Preconditions: word `at` of segment `id` is allocated;
/// `count` is below 2^30; `count` structs of `size` have fewer than 2^29 words.
///
/// Refusals: `AllocationFailed` if memory runs out; `MessageTooLarge` if the object needs a new
/// segment, and the object and a landing pad have more than 536,870,911 words, or the message can't
/// have more segments. After a refusal the pointer is null.
///
/// # Preconditions
///
/// ```text
/// requires place { IsPlace (A.view arena.old).words id at }
/// requires few { count < 2 ^ 30 }
/// requires words { count * (size.data_words + size.pointers) < 2 ^ 29 }
/// ```
#[inline]
pub fn init_struct_list<A: BuilderArena>(
    arena: &mut A,
    id: u32,
    at: u32,
    count: u32,
    size: StructSize,
) -> Result<WordPlace, ErrorKind> {
    zero_object(arena, id, at);
    make_struct_list(arena, id, at, count, size)
}
