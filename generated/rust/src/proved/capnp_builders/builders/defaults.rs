//! Replaces null pointers by copies of a field's default value (encoding specification, "Default
//! Values").

use crate::proved::capnp_allocation::landing::pointer_word;
use crate::proved::capnp_arena_traits::arena::{BuilderArena, WordPlace};
use crate::proved::capnp_builders::copy;
use crate::proved::capnp_copies::form::{CopyForm, Destination};
use crate::proved::capnp_readers::readers::PointerReader;
use crate::proved::capnp_words::error::ErrorKind;
use crate::proved::capnp_words::read_limiter::ReadLimiter;
use crate::proved::capnp_words::words;

/// Copies the value of `default`, plain, to the null pointer at `at` of segment `id` ("Default
/// Values"). `default` is one segment, and its first word is the pointer to the value.
/// Preconditions: word `at` of segment `id` is allocated and zero; `default` has at least one word
/// and fewer than 2^32.
///
/// Reading `default` charges nothing, and may enter `i32::MAX` levels of structs and lists.
/// Refusals: `UnknownPointerType` for a capability in `default`; `TriedToReadFromNullArena` for a
/// far pointer in `default`; for any other fault of `default`, the refusal of reading it. If the
/// copy doesn't fit after the words of the pointer's segment, and no other segment has room for one
/// of its objects: `AllocationFailed` if memory runs out; `MessageTooLarge(n)` if n is above
/// 536,870,911, where n is the number of that object's words, plus one for a landing pad;
/// `MessageTooLarge(usize::MAX)` if the message already has 4,294,967,295 segments. After a refusal
/// the pointer is null, and the words that were allocated are zero.
///
/// # Preconditions
///
/// ```text
/// requires null { IsNullPlace (A.view arena.old).words id at }
/// requires some { 8 ≤ length default.now }
/// requires few { length default.now / 8 < 2 ^ 32 }
/// ```
#[inline(never)]
pub fn copy_default<A: BuilderArena>(
    arena: &mut A,
    id: u32,
    at: u32,
    default: &[u8],
) -> Result<(), ErrorKind> {
    let from: PointerReader<'_, A> = PointerReader::from_default(default)?;
    let mut lim = ReadLimiter::new(None);
    let to = Destination {
        place: WordPlace { segment: id, at },
        form: CopyForm::OfDefault,
    };
    copy::copy_in_form(arena, to, from.pointer(), &mut lim)
}

/// If the pointer at `at` of segment `id` is null, copies the value of `default` to it, like
/// `copy_default`. A pointer that isn't null stays as it is. A null pointer stays null if `default`
/// is `None` or starts with a null word.
///
/// Refuses only if the pointer is null: with `MessageContainsOutOfBoundsPointer` if `default` has
/// fewer than 8 bytes, and then nothing changes; otherwise like `copy_default`.
///
/// # Preconditions
///
/// ```text
/// requires place { IsPlace (A.view arena.old).words id at }
/// requires few { IsShortDefault default }
/// ```
#[inline]
pub(in crate::proved::capnp_builders) fn put_default<A: BuilderArena>(
    arena: &mut A,
    id: u32,
    at: u32,
    default: Option<&[u8]>,
) -> Result<(), ErrorKind> {
    let Some(bytes) = default else {
        return Ok(());
    };
    if !pointer_word(arena, id, at).is_null() {
        return Ok(());
    }
    if bytes.len() < 8 {
        return Err(ErrorKind::MessageContainsOutOfBoundsPointer);
    }
    if words::word_at(bytes, 0) == 0 {
        return Ok(());
    }
    copy_default(arena, id, at, bytes)
}

/// Like `put_default`, for a pointer that should lead to a text or data. Refuses with
/// `ExistingPointerIsNotAList` if both the pointer and the first word of `default` are null.
///
/// # Preconditions
///
/// ```text
/// requires place { IsPlace (A.view arena.old).words id at }
/// requires few { IsShortDefault default }
/// ```
#[inline]
pub(in crate::proved::capnp_builders) fn put_blob_default<A: BuilderArena>(
    arena: &mut A,
    id: u32,
    at: u32,
    default: Option<&[u8]>,
) -> Result<(), ErrorKind> {
    if starts_with_null(default) && pointer_word(arena, id, at).is_null() {
        return Err(ErrorKind::ExistingPointerIsNotAList);
    }
    put_default(arena, id, at, default)
}

/// Whether there is a default whose first word is null.
#[inline]
fn starts_with_null(default: Option<&[u8]>) -> bool {
    match default {
        Some(bytes) => bytes.len() >= 8 && words::word_at(bytes, 0) == 0,
        None => false,
    }
}
