//! Counts the words of a canonical copy before it is made (encoding specification,
//! "Canonicalization").

use super::path::Reached;
use super::pointer_run::PointerRun;
use crate::proved::capnp_arena::arena::{ReaderArena, MAX_SEGMENT_WORDS};
use crate::proved::capnp_pointers::nesting::one_level_less;
use crate::proved::capnp_pointers::object::{Object, Place};
use crate::proved::capnp_pointers::pointers::Pointer;
use crate::proved::capnp_words::error::ErrorKind;
use crate::proved::capnp_words::read_limiter::ReadLimiter;
use crate::proved::capnp_words::wire_pointer::{words_for_elements, StructSize};
use crate::proved::capnp_words::words::used_words_in;

/// Adds `made` to `words`. Refuses with `MessageTooLarge(536870911)` if the sum is more than
/// 536,870,911.
fn sum_of_words(words: u32, made: u32) -> Result<u32, ErrorKind> {
    let sum = u64::from(words) + u64::from(made);
    if sum <= u64::from(MAX_SEGMENT_WORDS) {
        Ok(sum as u32)
    } else {
        Err(ErrorKind::MessageTooLarge(MAX_SEGMENT_WORDS as usize))
    }
}

/// The most words, up to the last one that isn't zero, that any of `count` sections uses. Each has
/// `words` words; the first comes `after` words after `start`, and each next one `stride` words
/// after it.
///
/// # Preconditions
///
/// ```text
/// requires inside { IsInBytes start (count * stride) }
/// requires apart { after + words ≤ stride }
/// ```
fn widest_section(start: Place<'_>, after: u16, words: u16, stride: u32, count: u32) -> u32 {
    let mut widest = 0;
    let mut at = start.at as usize;
    for _ in 0..count {
        let used = used_words_in(start.bytes, at + usize::from(after), usize::from(words));
        widest = widest.max(used as u32);
        at += stride as usize;
    }
    widest
}

/// The number of words that a canonical copy makes of a struct whose first word is at `start`,
/// without its children: those of each section up to the last one that isn't zero.
///
/// # Preconditions
///
/// ```text
/// requires { IsObjectInBytes (Object.Struct start size) }
/// ```
fn struct_words(start: Place<'_>, size: StructSize) -> u32 {
    let data = start.at as usize;
    let pointers = data + usize::from(size.data_words);
    let used = used_words_in(start.bytes, data, usize::from(size.data_words))
        + used_words_in(start.bytes, pointers, usize::from(size.pointers));
    used as u32
}

/// The number of words that a canonical copy makes of a list of `count` structs, without their
/// children: a tag, and elements of the least widths. The first struct is at `start`.
///
/// # Preconditions
///
/// ```text
/// requires { IsObjectInBytes (Object.Structs start size count) }
/// ```
fn struct_list_words(start: Place<'_>, size: StructSize, count: u32) -> u32 {
    let stride = size.total();
    let data = widest_section(start, 0, size.data_words, stride, count);
    let pointers = widest_section(start, size.data_words, size.pointers, stride, count);
    1 + count * (data + pointers)
}

/// The number of words that a canonical copy makes of `object`, without its children.
///
/// # Preconditions
///
/// ```text
/// requires { IsObjectInBytes object }
/// ```
fn object_words(object: Object<'_>) -> u32 {
    match object {
        Object::Null | Object::Capability(_) => 0,
        Object::Struct { start, size } => struct_words(start, size),
        Object::Flat { size, count, .. } => words_for_elements(size, count),
        Object::Pointers { count, .. } => count,
        Object::Structs { start, size, count } => struct_list_words(start, size, count),
    }
}

/// Refuses a capability: it has no canonical copy.
fn refuse_capability(object: Object<'_>) -> Result<(), ErrorKind> {
    match object {
        Object::Capability(_) => Err(ErrorKind::CannotCreateACanonicalMessageWithACapability),
        _ => Ok(()),
    }
}

/// Adds the words of the values of `count` consecutive pointers, from position `at` on, to `words`.
///
/// # Preconditions
///
/// ```text
/// requires inside { at + count ≤ length (segment_read (reading A.ReaderArena from.now)) }
/// ```
#[inline(never)]
fn add_pointers<A: ReaderArena>(
    from: &Pointer<'_, A>,
    at: u32,
    count: u32,
    nesting_limit: i32,
    words: u32,
    lim: &mut ReadLimiter,
) -> Result<u32, ErrorKind> {
    let mut sum = words;
    for i in 0..count {
        match add_value(from, at + i, nesting_limit, sum, lim) {
            Ok(more) => sum = more,
            Err(kind) => return Err(kind),
        }
    }
    Ok(sum)
}

/// Adds the words of the value of the pointer at position `at` to `words`.
fn add_value<A: ReaderArena>(
    from: &Pointer<'_, A>,
    at: u32,
    nesting_limit: i32,
    words: u32,
    lim: &mut ReadLimiter,
) -> Result<u32, ErrorKind> {
    let place = Place { at, ..from.place };
    let object = match from.source.read_object(place, nesting_limit, lim) {
        Ok(object) => object,
        Err(kind) => return Err(kind),
    };
    match refuse_capability(object) {
        Ok(()) => {}
        Err(kind) => return Err(kind),
    }
    let sum = match sum_of_words(words, object_words(object)) {
        Ok(sum) => sum,
        Err(kind) => return Err(kind),
    };
    let inner = one_level_less(nesting_limit);
    match object {
        Object::Null => Ok(sum),
        Object::Capability(_) => Ok(sum),
        Object::Flat { .. } => Ok(sum),
        Object::Struct { start, size } => {
            let first = Pointer {
                source: from.source,
                place: start,
                nesting_limit: inner,
            };
            add_elements(&first, size, 1, sum, lim)
        }
        Object::Pointers { start, count } => {
            let first = Pointer {
                source: from.source,
                place: start,
                nesting_limit: inner,
            };
            add_pointers(&first, start.at, count, inner, sum, lim)
        }
        Object::Structs { start, size, count } => {
            let first = Pointer {
                source: from.source,
                place: start,
                nesting_limit: inner,
            };
            add_elements(&first, size, count, sum, lim)
        }
    }
}

/// Adds the words of the values of the pointers of `count` consecutive structs to `words`. The first
/// struct is at `from`, and each has the sections `size`.
///
/// # Preconditions
///
/// ```text
/// requires inside { from.now.place.at + count * (size.data_words + size.pointers)
///     ≤ length (segment_read (reading A.ReaderArena from.now)) }
/// ```
fn add_elements<A: ReaderArena>(
    from: &Pointer<'_, A>,
    size: StructSize,
    count: u32,
    words: u32,
    lim: &mut ReadLimiter,
) -> Result<u32, ErrorKind> {
    if size.pointers == 0 {
        return Ok(words);
    }
    let data = u64::from(size.data_words);
    let pointers = u32::from(size.pointers);
    let width = data + u64::from(pointers);
    let mut sum = words;
    for i in 0..count {
        let at = u64::from(from.place.at) + u64::from(i) * width + data;
        match add_pointers(from, at as u32, pointers, from.nesting_limit, sum, lim) {
            Ok(more) => sum = more,
            Err(kind) => return Err(kind),
        }
    }
    Ok(sum)
}

/// Counts the words of the canonical copy of what `from` leads to, with its root pointer. Takes no
/// memory, and reads the value once, which may cost `left` words.
///
/// Refuses with the first refusal met while reading; with `MessageTooLarge(536870911)` as soon as
/// there are more than 536,870,911 words.
pub(super) fn copy_size<A: ReaderArena>(
    from: Reached<'_, A>,
    left: Option<usize>,
) -> Result<u32, ErrorKind> {
    let mut lim = ReadLimiter::new(left);
    match from {
        Reached::Pointer(pointer) => add_value(
            &pointer,
            pointer.place.at,
            pointer.nesting_limit,
            1,
            &mut lim,
        ),
        Reached::Element(element) => {
            let words = match sum_of_words(1, struct_words(element.first.place, element.size)) {
                Ok(words) => words,
                Err(kind) => return Err(kind),
            };
            let run = PointerRun::from_element(element);
            let first = run.first;
            add_pointers(
                &first,
                first.place.at,
                run.count,
                first.nesting_limit,
                words,
                &mut lim,
            )
        }
    }
}
