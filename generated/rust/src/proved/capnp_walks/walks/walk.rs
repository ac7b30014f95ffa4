//! Walks over the objects of a value.

use crate::proved::capnp_arena_traits::arena::ReaderArena;
use crate::proved::capnp_pointers::object::{rows_of_object, Place, Purpose};
use crate::proved::capnp_pointers::pointers::Pointer;
use crate::proved::capnp_refusals::refusals::RefusedPointer;
use crate::proved::capnp_walks::walks::listing::{add_object, WalkedObject, NO_PARENT};
use crate::proved::capnp_words::read_limiter::ReadLimiter;

/// Lists the object that the pointer `from`, a message's root, leads to, and all objects below it:
/// adds their entries at index `count` of `objects`. Returns the pointer at which it stops; `None`
/// if it reads the whole value.
pub(in crate::proved::capnp_walks) fn walk_value<A: ReaderArena>(
    from: &Pointer<'_, A>,
    objects: &mut [WalkedObject],
    count: &mut u64,
    lim: &mut ReadLimiter,
) -> Option<RefusedPointer> {
    let at = from.place.at;
    walk_object(from, at, NO_PARENT, from.nesting_limit, objects, count, lim)
}

/// # Preconditions
///
/// ```text
/// requires inside { at + pointers ≤ length (segment_read (reading A.ReaderArena from.now)) }
/// ```
// Lists the objects that `pointers` consecutive pointers from position `at` on lead to.
#[inline(never)]
fn walk_pointers<A: ReaderArena>(
    from: &Pointer<'_, A>,
    parent: u64,
    at: u32,
    pointers: u32,
    objects: &mut [WalkedObject],
    count: &mut u64,
    lim: &mut ReadLimiter,
) -> Option<RefusedPointer> {
    for i in 0..pointers {
        let limit = from.nesting_limit;
        match walk_object(from, at + i, parent, limit, objects, count, lim) {
            Some(refused) => return Some(refused),
            None => {}
        }
    }
    None
}

// Lists the object that the pointer at `at` leads to, and all objects below it.
fn walk_object<A: ReaderArena>(
    from: &Pointer<'_, A>,
    at: u32,
    parent: u64,
    nesting_limit: i32,
    objects: &mut [WalkedObject],
    count: &mut u64,
    lim: &mut ReadLimiter,
) -> Option<RefusedPointer> {
    let here = Pointer {
        source: from.source,
        place: Place { at, ..from.place },
        nesting_limit,
    };
    let segment = from.place.segment;
    let object = match here.read(Purpose::Value, lim) {
        Ok(object) => object,
        Err(refusal) => {
            return Some(RefusedPointer {
                segment,
                word: at,
                refusal,
            });
        }
    };
    let index = *count;
    add_object(parent, here.place, object, objects, count);
    let Some(rows) = rows_of_object(object) else {
        return None;
    };
    let first = here.inside(rows.start);
    walk_elements(
        &first,
        index,
        rows.data_words,
        rows.pointers,
        rows.count,
        objects,
        count,
        lim,
    )
}

/// # Preconditions
///
/// ```text
/// requires inside { from.now.place.at + elements * (data_words + pointers)
///     ≤ length (segment_read (reading A.ReaderArena from.now)) }
/// ```
// Lists the objects that the pointers of `elements` consecutive elements lead to, each element of
// `data_words` data words and `pointers` pointers.
fn walk_elements<A: ReaderArena>(
    from: &Pointer<'_, A>,
    parent: u64,
    data_words: u32,
    pointers: u32,
    elements: u32,
    objects: &mut [WalkedObject],
    count: &mut u64,
    lim: &mut ReadLimiter,
) -> Option<RefusedPointer> {
    if pointers == 0 {
        return None;
    }
    let width = u64::from(data_words) + u64::from(pointers);
    for i in 0..elements {
        let at = u64::from(from.place.at) + u64::from(i) * width + u64::from(data_words);
        match walk_pointers(from, parent, at as u32, pointers, objects, count, lim) {
            Some(refused) => return Some(refused),
            None => {}
        }
    }
    None
}
