//! The walk that tests whether a value conforms to a schema.

use crate::proved::capnp_arena_traits::arena::ReaderArena;
use crate::proved::capnp_pointers::nesting::one_level_less;
use crate::proved::capnp_pointers::object::{Object, Place, PointerWord};
use crate::proved::capnp_pointers::pointers::Pointer;
use crate::proved::capnp_words::error::ErrorKind;
use crate::proved::capnp_words::read_limiter::ReadLimiter;
use crate::proved::capnp_words::wire_pointer::{
    data_bits_per_element, is_primitive_list, words_for_elements, ElementSize, StructSize,
    WirePointer, WirePointerKind,
};
use crate::proved::capnp_words::words::word_at;
use crate::proved::typed_conforming::schema::{Kind, Misfit, NOT_UTF8};
use crate::proved::typed_conforming::table::{
    row_below, wanted_word, word_kind, TableRow, TEXT, UTF8,
};
use core::mem;

// The highest bit of each byte of a word, which ASCII doesn't have.
const HIGH_BITS: u64 = 0x8080_8080_8080_8080;

/// # Preconditions
///
/// ```text
/// requires { size_number found < 7 }
/// ```
// The refusal for elements of a list that are too narrow, if they are.
#[inline]
fn narrow_elements_error(expected: ElementSize, found: ElementSize) -> Option<ErrorKind> {
    if found == ElementSize::Bit && expected != ElementSize::Bit {
        return Some(ErrorKind::FoundBitListWhereStructListWasExpected);
    }
    let is_wide = data_bits_per_element(found) >= data_bits_per_element(expected);
    if is_wide && (expected != ElementSize::Pointer || found == ElementSize::Pointer) {
        None
    } else {
        Some(ErrorKind::MessageContainsListWithIncompatibleElementType)
    }
}

// The refusal for sections of a list of structs that are too narrow, if they are.
#[inline]
fn narrow_structs_error(expected: ElementSize, sections: StructSize) -> Option<ErrorKind> {
    match expected {
        ElementSize::Void | ElementSize::InlineComposite => None,
        ElementSize::Bit => Some(ErrorKind::FoundStructListWhereBitListWasExpected),
        ElementSize::Pointer if sections.pointers == 0 => {
            Some(ErrorKind::ExpectedAPointerListButGotAListOfDataOnlyStructs)
        }
        ElementSize::Pointer => None,
        _ if sections.data_words == 0 => {
            Some(ErrorKind::ExpectedAPrimitiveListButGotAListOfPointerOnlyStructs)
        }
        _ => None,
    }
}

/// # Preconditions
///
/// ```text
/// requires { 8 * (start + words_for 2 count) ≤ length bytes.now }
/// ```
// Whether the `count` bytes from word `start` of a segment on end in a zero byte.
#[inline]
fn ends_in_zero(bytes: &[u8], start: u32, count: u32) -> bool {
    if count == 0 {
        return false;
    }
    let last = (count - 1) as usize;
    let word = word_at(bytes, start as usize + last / 8);
    word >> (8 * (last % 8)) & 0xff == 0
}

/// # Preconditions
///
/// ```text
/// requires { 8 * start.at + count ≤ length start.bytes.now }
/// ```
// The `count` bytes from a place on.
#[inline]
fn bytes_at<'a>(start: Place<'a>, count: u32) -> &'a [u8] {
    let first = 8 * start.at as usize;
    &start.bytes[first..first + count as usize]
}

// Whether bytes are UTF-8. Each of them is below 256.
#[inline]
fn are_utf8(bytes: &[u8]) -> bool {
    str::from_utf8(bytes).is_ok()
}

/// # Preconditions
///
/// ```text
/// requires { 8 * (start + words) ≤ length bytes.now }
/// ```
// Whether the bytes of `words` words from word `start` of a segment on are all ASCII.
#[inline(always)]
fn are_ascii(bytes: &[u8], start: u32, words: u32) -> bool {
    for i in 0..words {
        let word = word_at(bytes, start as usize + i as usize);
        if word & HIGH_BITS != 0 {
            return false;
        }
    }
    true
}

/// # Preconditions
///
/// ```text
/// requires { 8 * (start.at + words_for 2 count) ≤ length start.bytes.now }
/// ```
// Whether the `count` bytes from a place on are UTF-8, without the last one. Tests each of them.
#[inline(never)]
fn is_utf8_by_bytes(start: Place, count: u32) -> bool {
    are_utf8(bytes_at(start, count.saturating_sub(1)))
}

/// # Preconditions
///
/// ```text
/// requires { 8 * (start.at + words_for 2 count) ≤ length start.bytes.now }
/// ```
// Whether the `count` bytes from a place on are UTF-8, without the last one.
#[inline(always)]
fn is_utf8_text(start: Place, count: u32) -> bool {
    let words = (u64::from(count) + 7) / 8;
    if are_ascii(start.bytes, start.at, words as u32) {
        return true;
    }
    is_utf8_by_bytes(start, count)
}

/// # Preconditions
///
/// ```text
/// requires { IsAtHand object }
/// ```
// The refusal for an object that isn't a text, if it isn't.
#[inline(always)]
fn text_error(object: Object) -> Option<ErrorKind> {
    match object {
        Object::Null => None,
        Object::Flat {
            start,
            size: ElementSize::Byte,
            count,
        } => {
            if ends_in_zero(start.bytes, start.at, count) {
                None
            } else {
                Some(ErrorKind::MessageContainsTextThatIsNotNULTerminated)
            }
        }
        Object::Flat { .. } | Object::Pointers { .. } | Object::Structs { .. } => {
            Some(ErrorKind::MessageContainsListPointerOfNonBytesWhereTextWasExpected)
        }
        _ => Some(ErrorKind::MessageContainsNonListPointerWhereTextWasExpected),
    }
}

/// # Preconditions
///
/// ```text
/// requires { IsAtHand object }
/// ```
// The refusal for a text that isn't UTF-8, if it isn't.
#[inline(always)]
fn utf8_error(object: Object) -> Option<ErrorKind> {
    match object {
        Object::Flat {
            start,
            size: ElementSize::Byte,
            count,
        } => {
            if is_utf8_text(start, count) {
                None
            } else {
                Some(NOT_UTF8)
            }
        }
        _ => None,
    }
}

// The refusal for an object that isn't data, if it isn't.
#[inline(always)]
fn data_error(object: Object) -> Option<ErrorKind> {
    match object {
        Object::Null
        | Object::Flat {
            size: ElementSize::Byte,
            ..
        } => None,
        Object::Flat { .. } | Object::Pointers { .. } | Object::Structs { .. } => {
            Some(ErrorKind::MessageContainsListPointerOfNonBytesWhereDataWasExpected)
        }
        _ => Some(ErrorKind::MessageContainsNonListPointerWhereDataWasExpected),
    }
}

/// # Preconditions
///
/// ```text
/// requires { IsAtHand object }
/// ```
// The refusal for an object that isn't a list with elements of at least this size, if it isn't.
#[inline(always)]
fn list_error(size: ElementSize, object: Object) -> Option<ErrorKind> {
    match object {
        Object::Null => None,
        Object::Flat { size: found, .. } => narrow_elements_error(size, found),
        Object::Pointers { .. } => narrow_elements_error(size, ElementSize::Pointer),
        Object::Structs { size: sections, .. } => narrow_structs_error(size, sections),
        _ => Some(ErrorKind::MessageContainsNonListPointerWhereListPointerWasExpected),
    }
}

/// # Preconditions
///
/// ```text
/// requires { IsAtHand object }
/// ```
// The refusal for an object that isn't what a pointer of this kind may lead to, if it isn't.
#[inline(always)]
fn misfit_error(kind: Kind, object: Object) -> Option<ErrorKind> {
    match kind {
        Kind::Any => None,
        Kind::Text => text_error(object),
        Kind::Utf8 => match text_error(object) {
            Some(error) => Some(error),
            None => utf8_error(object),
        },
        Kind::Data => data_error(object),
        Kind::List(size, _) => list_error(size, object),
        Kind::Capability => match object {
            Object::Null | Object::Capability(_) => None,
            _ => Some(
                ErrorKind::MessageContainsNonCapabilityPointerWhereCapabilityPointerWasExpected,
            ),
        },
        Kind::Struct(_) => match object {
            Object::Null | Object::Struct { .. } => None,
            _ => Some(ErrorKind::MessageContainsNonStructPointerWhereStructPointerWasExpected),
        },
        Kind::AnyList => match object {
            Object::Capability(_) | Object::Struct { .. } => {
                Some(ErrorKind::MessageContainsNonListPointerWhereListPointerWasExpected)
            }
            _ => None,
        },
    }
}

// The elements of an object: a struct is one, and a pointer of a list is one without data.
#[derive(Clone, Copy)]
struct ObjectElements<'a> {
    // The first word of the first element.
    start: Place<'a>,
    // The number of words before the pointers of an element.
    data_words: u32,
    // The number of pointers of an element.
    pointers: u32,
    // The number of elements.
    count: u32,
}

// The elements of an object that may have pointers.
#[inline]
fn elements_of(object: Object) -> Option<ObjectElements> {
    match object {
        Object::Null | Object::Capability(_) | Object::Flat { .. } => None,
        Object::Struct { start, size } => Some(ObjectElements {
            start,
            data_words: u32::from(size.data_words),
            pointers: u32::from(size.pointers),
            count: 1,
        }),
        Object::Pointers { start, count } => Some(ObjectElements {
            start,
            data_words: 0,
            pointers: 1,
            count,
        }),
        Object::Structs { start, size, count } => Some(ObjectElements {
            start,
            data_words: u32::from(size.data_words),
            pointers: u32::from(size.pointers),
            count,
        }),
    }
}

// A pointer as the schema has it: what it may lead to, its row, and its index there.
#[derive(Clone, Copy)]
struct SchemaPointer {
    kind: Kind,
    row: u32,
    index: u32,
}

// A walk: the limiter that it charges, and why it stopped. The refusal is here so that calls return
// a `Result` with `Stopped`, which fits a register.
struct SchemaWalk {
    // Why the walk stopped. Before that, it has no meaning.
    misfit: Misfit,
    // The limiter, moved here during the walk.
    lim: ReadLimiter,
}

// The walk has stopped, with its `misfit`.
#[derive(Clone, Copy)]
struct Stopped;

impl SchemaWalk {
    // Begins a walk, and moves the limiter from `lim` into it.
    #[inline]
    fn begin(lim: &mut ReadLimiter) -> Self {
        SchemaWalk {
            misfit: Misfit {
                error: ErrorKind::ReadLimitExceeded,
                segment: 0,
                word: 0,
                row: 0,
                index: 0,
            },
            lim: mem::replace(lim, ReadLimiter::new(None)),
        }
    }
}

// The refusal of the pointer at `at`.
#[inline(always)]
fn misfit_of<A: ReaderArena>(
    pointer: SchemaPointer,
    from: &Pointer<'_, A>,
    at: u32,
    error: ErrorKind,
) -> Misfit {
    Misfit {
        error,
        segment: from.place.segment,
        word: at,
        row: pointer.row,
        index: pointer.index,
    }
}

/// # Preconditions
///
/// ```text
/// requires word { IsWordAt word.0
///     (reading_on A.ReaderArena from.now at from.now.nesting_limit) }
/// requires is_list { kind word.0 ≡ 1 }
/// requires of_bits { (0 < element_size word.0) × (element_size word.0 ≤ 5) }
/// requires of_size { size_number size ≡ element_size word.0 }
/// ```
// Tests the list of bits or numbers that the word at `at` describes, whose elements have this size.
#[inline(always)]
fn check_primitive_list<A: ReaderArena>(
    pointer: SchemaPointer,
    from: &Pointer<'_, A>,
    at: u32,
    word: WirePointer,
    size: ElementSize,
    walk: &mut SchemaWalk,
) -> Result<(), Stopped> {
    let place = PointerWord {
        place: Place { at, ..from.place },
        word,
        nesting_limit: from.nesting_limit,
    };
    let count = word.list_element_count();
    let words = words_for_elements(size, count);
    let first = match from
        .source
        .read_near_primitive_list(place, words, &mut walk.lim)
    {
        Ok(first) => first,
        Err(error) => {
            walk.misfit = misfit_of(pointer, from, at, error);
            return Err(Stopped);
        }
    };
    let start = Place {
        at: first,
        ..from.place
    };
    match misfit_error(pointer.kind, Object::Flat { start, size, count }) {
        Some(error) => {
            walk.misfit = misfit_of(pointer, from, at, error);
            Err(Stopped)
        }
        None => Ok(()),
    }
}

/// # Preconditions
///
/// ```text
/// requires word { IsWordAt word.0
///     (reading_on A.ReaderArena from.now at from.now.nesting_limit) }
/// requires is_list { kind word.0 ≡ 1 }
/// requires of_bits { (0 < element_size word.0) × (element_size word.0 ≤ 5) }
/// ```
// Tests the list of bits or numbers that the word at `at` describes, for pointer `index` of the row
// at `row`, whose kind word in the table is `wanted`. Texts are told apart first: most lists are
// texts, and of a constant kind and size little is left to test.
#[inline(always)]
fn check_wanted_list<A: ReaderArena>(
    wanted: u32,
    row: u32,
    index: u32,
    from: &Pointer<'_, A>,
    at: u32,
    word: WirePointer,
    walk: &mut SchemaWalk,
) -> Result<(), Stopped> {
    match word.list_element_size() {
        ElementSize::Byte if wanted == TEXT => {
            let text = SchemaPointer {
                kind: Kind::Text,
                row,
                index,
            };
            check_primitive_list(text, from, at, word, ElementSize::Byte, walk)
        }
        ElementSize::Byte if wanted == UTF8 => {
            let text = SchemaPointer {
                kind: Kind::Utf8,
                row,
                index,
            };
            check_primitive_list(text, from, at, word, ElementSize::Byte, walk)
        }
        size => {
            let list = SchemaPointer {
                kind: word_kind(wanted),
                row,
                index,
            };
            check_primitive_list(list, from, at, word, size, walk)
        }
    }
}

/// # Preconditions
///
/// ```text
/// requires inside { at + data_words + index
///     < length (segment_read (reading A.ReaderArena from.now)) }
/// ```
// Tests what pointer `index` of the element at `at` leads to. A list of bits or numbers in the same
// segment, such as a text, is tested in place.
#[inline(always)]
fn check_pointer<A: ReaderArena>(
    row: TableRow<'_>,
    from: &Pointer<'_, A>,
    at: u32,
    data_words: u32,
    index: u32,
    walk: &mut SchemaWalk,
) -> Result<(), Stopped> {
    let position = at + data_words + index;
    let word = Place {
        at: position,
        ..from.place
    }
    .word();
    if word.is_null() {
        return Ok(());
    }
    let element = Place { at, ..from.place };
    let wanted = wanted_word(row, element, data_words, index);
    match word.kind() {
        WirePointerKind::List if is_primitive_list(word) => {
            check_wanted_list(wanted, row.row, index, from, position, word, walk)
        }
        _ => {
            let pointer = SchemaPointer {
                kind: word_kind(wanted),
                row: row.row,
                index,
            };
            check_object(row.table, pointer, from, position, walk)
        }
    }
}

// Tests what the pointer at `at` leads to, near or far, and of any kind. Apart from the loop over
// pointers, so that most pointers need no call.
#[inline(never)]
fn check_object<A: ReaderArena>(
    table: &[u32],
    pointer: SchemaPointer,
    from: &Pointer<'_, A>,
    at: u32,
    walk: &mut SchemaWalk,
) -> Result<(), Stopped> {
    let place = Place { at, ..from.place };
    let object = match from
        .source
        .read_object(place, from.nesting_limit, &mut walk.lim)
    {
        Ok(object) => object,
        Err(error) => {
            walk.misfit = misfit_of(pointer, from, at, error);
            return Err(Stopped);
        }
    };
    match misfit_error(pointer.kind, object) {
        Some(error) => {
            walk.misfit = misfit_of(pointer, from, at, error);
            return Err(Stopped);
        }
        None => {}
    }
    let Some(elements) = elements_of(object) else {
        return Ok(());
    };
    let first = Pointer {
        source: from.source,
        place: elements.start,
        nesting_limit: one_level_less(from.nesting_limit),
    };
    let below = row_below(table, pointer.kind);
    check_elements(
        below,
        &first,
        elements.data_words,
        elements.pointers,
        elements.count,
        walk,
    )
}

/// # Preconditions
///
/// ```text
/// requires inside { from.now.place.at + count * (data_words + pointers)
///     ≤ length (segment_read (reading A.ReaderArena from.now)) }
/// ```
// Tests the pointers of `count` elements, of `data_words` and `pointers` words, from `from` on.
#[inline]
fn check_elements<A: ReaderArena>(
    row: TableRow<'_>,
    from: &Pointer<'_, A>,
    data_words: u32,
    pointers: u32,
    count: u32,
    walk: &mut SchemaWalk,
) -> Result<(), Stopped> {
    if pointers == 0 {
        return Ok(());
    }
    let width = u64::from(data_words) + u64::from(pointers);
    for i in 0..count {
        let at = u64::from(from.place.at) + u64::from(i) * width;
        match check_pointers(row, from, at as u32, data_words, pointers, walk) {
            Ok(()) => {}
            Err(stopped) => return Err(stopped),
        }
    }
    Ok(())
}

/// # Preconditions
///
/// ```text
/// requires inside { at + (data_words + pointers)
///     ≤ length (segment_read (reading A.ReaderArena from.now)) }
/// ```
// Tests the pointers of the element at `at`.
#[inline]
fn check_pointers<A: ReaderArena>(
    row: TableRow<'_>,
    from: &Pointer<'_, A>,
    at: u32,
    data_words: u32,
    pointers: u32,
    walk: &mut SchemaWalk,
) -> Result<(), Stopped> {
    for i in 0..pointers {
        match check_pointer(row, from, at, data_words, i, walk) {
            Ok(()) => {}
            Err(stopped) => return Err(stopped),
        }
    }
    Ok(())
}

/// Tests whether a whole value can be read within both limits, and conforms to a schema, which is a
/// table (module `schema`). `kind` says what `pointer` itself may lead to;
/// `Kind::Struct(row)` for the root of a message. Reads each object once and allocates nothing.
///
/// Counts and charges what `Pointer::validate` does: what reading the value once costs. A pointer
/// that the schema doesn't have, or whose members aren't set, has to be readable too, but may lead
/// to anything.
///
/// Refuses with the first fault found, in the order of the walk: like `Pointer::validate` if an
/// object can't be read; like the getter for the kind if an object is readable but isn't what the
/// kind allows, such as `MessageContainsTextThatIsNotNULTerminated`; with `NOT_UTF8` if a text isn't
/// UTF-8. Names the pointer at fault. What was charged before stays charged.
#[inline]
pub fn conforms<A: ReaderArena>(
    table: &[u32],
    kind: Kind,
    pointer: &Pointer<'_, A>,
    lim: &mut ReadLimiter,
) -> Result<(), Misfit> {
    let first = SchemaPointer {
        kind,
        row: 0,
        index: 0,
    };
    let mut walk = SchemaWalk::begin(lim);
    match check_object(table, first, pointer, pointer.place.at, &mut walk) {
        Ok(()) => {
            *lim = walk.lim;
            Ok(())
        }
        Err(Stopped) => {
            *lim = walk.lim;
            Err(walk.misfit)
        }
    }
}
