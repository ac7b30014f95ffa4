//! Searches a value for the first pointer whose object is refused.

use crate::proved::capnp_arena_traits::arena::ReaderArena;
use crate::proved::capnp_pointers::object::{rows_of_object, Object, Place, Purpose};
use crate::proved::capnp_pointers::pointers::Pointer;
use crate::proved::capnp_words::error::ErrorKind;
use crate::proved::capnp_words::read_limiter::ReadLimiter;

/// The pointer at which reading a message stops.
#[derive(Clone, Copy, Debug, PartialEq, Eq)]
pub struct RefusedPointer {
    /// The number of the pointer's segment.
    pub segment: u64,
    /// The position of the pointer in its segment, in words.
    pub word: u32,
    /// Why reading the object that the pointer leads to is refused.
    pub refusal: ErrorKind,
}

/// What is demanded of the objects of a value.
#[derive(Clone, Copy)]
pub struct Demands {
    /// What the objects are read for.
    pub purpose: Purpose,
    /// Whether the value may have capabilities.
    pub capabilities: bool,
}

/// Searches the value that the pointer `from` leads to, with all objects below it. Returns the first
/// pointer whose object can't be read, or is a capability although `demands` permits none; `None` if
/// the value is read to its end. Takes no memory.
///
/// Reads the objects in the order of their pointers, each like `Source::read_object`, or like
/// `Source::measure_object` if they are read for their size, and counts and charges like these.
pub fn search_value<A: ReaderArena>(
    demands: Demands,
    from: &Pointer<'_, A>,
    lim: &mut ReadLimiter,
) -> Option<RefusedPointer> {
    search_object(demands, from, from.place.at, from.nesting_limit, lim)
}

// Refuses a capability where none may be.
fn refuse_capability(capabilities: bool, object: Object<'_>) -> Result<(), ErrorKind> {
    match object {
        Object::Capability(_) if !capabilities => {
            Err(ErrorKind::CannotCreateACanonicalMessageWithACapability)
        }
        _ => Ok(()),
    }
}

/// # Preconditions
///
/// ```text
/// requires inside { at + count ≤ length (segment_read (reading A.ReaderArena from.now)) }
/// ```
// Searches `count` consecutive pointers from position `at` on.
#[inline(never)]
fn search_pointers<A: ReaderArena>(
    demands: Demands,
    from: &Pointer<'_, A>,
    at: u32,
    count: u32,
    nesting_limit: i32,
    lim: &mut ReadLimiter,
) -> Option<RefusedPointer> {
    for i in 0..count {
        match search_object(demands, from, at + i, nesting_limit, lim) {
            Some(found) => return Some(found),
            None => {}
        }
    }
    None
}

// Searches what the pointer at `at` leads to.
fn search_object<A: ReaderArena>(
    demands: Demands,
    from: &Pointer<'_, A>,
    at: u32,
    nesting_limit: i32,
    lim: &mut ReadLimiter,
) -> Option<RefusedPointer> {
    let here = Pointer {
        source: from.source,
        place: Place { at, ..from.place },
        nesting_limit,
    };
    let segment = from.place.segment;
    let object = match here.read(demands.purpose, lim) {
        Ok(object) => object,
        Err(refusal) => {
            return Some(RefusedPointer {
                segment,
                word: at,
                refusal,
            });
        }
    };
    match refuse_capability(demands.capabilities, object) {
        Ok(()) => {}
        Err(refusal) => {
            return Some(RefusedPointer {
                segment,
                word: at,
                refusal,
            });
        }
    }
    let Some(rows) = rows_of_object(object) else {
        return None;
    };
    let first = here.inside(rows.start);
    search_elements(
        demands,
        &first,
        rows.data_words,
        rows.pointers,
        rows.count,
        lim,
    )
}

/// # Preconditions
///
/// ```text
/// requires inside { from.now.place.at + count * (data_words + pointers)
///     ≤ length (segment_read (reading A.ReaderArena from.now)) }
/// ```
// Searches the pointers of `count` consecutive elements, each of `data_words` data words and
// `pointers` pointers.
fn search_elements<A: ReaderArena>(
    demands: Demands,
    from: &Pointer<'_, A>,
    data_words: u32,
    pointers: u32,
    count: u32,
    lim: &mut ReadLimiter,
) -> Option<RefusedPointer> {
    if pointers == 0 {
        return None;
    }
    let width = u64::from(data_words) + u64::from(pointers);
    for i in 0..count {
        let at = u64::from(from.place.at) + u64::from(i) * width + u64::from(data_words);
        let limit = from.nesting_limit;
        match search_pointers(demands, from, at as u32, pointers, limit, lim) {
            Some(found) => return Some(found),
            None => {}
        }
    }
    None
}
