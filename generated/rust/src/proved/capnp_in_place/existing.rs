//! Finds what a pointer leads to, without changing the message (encoding specification, "Structs",
//! "Lists" and "Capabilities (Interfaces)").

use crate::proved::capnp_allocation::landing::{
    follow_word, pointer_word, segment_length, PointerTarget,
};
use crate::proved::capnp_arena_traits::arena::BuilderArena;
use crate::proved::capnp_words::error::ErrorKind;
use crate::proved::capnp_words::wire_pointer::{
    data_bits_per_element, pointers_per_element, ElementSize, StructSize, WirePointer,
    WirePointerKind,
};
use crate::proved::capnp_words::words;

/// A list that a pointer leads to.
#[derive(Clone, Copy, Debug)]
pub struct ExistingList {
    /// The number of the segment that has the elements.
    pub segment: u32,
    /// The position of the word where the first element starts. In a list of structs, this is the
    /// word after the tag.
    pub start: u32,
    /// The element size.
    pub size: ElementSize,
    /// The sizes of the two sections of each element; 0 and 0 if the elements aren't structs.
    pub struct_size: StructSize,
    /// The number of elements.
    pub count: u32,
}

/// The bytes of a text or of data that a pointer leads to.
#[derive(Clone, Copy, Debug, PartialEq, Eq)]
pub struct ExistingBytes {
    /// The number of the segment that has the bytes.
    pub segment: u32,
    /// The position of the word that starts with the first byte.
    pub start: u32,
    /// The number of bytes.
    pub length: u32,
}

/// A struct that a pointer leads to.
#[derive(Clone, Copy, Debug)]
pub struct ExistingStruct {
    /// The number of the segment that has the struct's sections.
    pub segment: u32,
    /// The position of the word where the data section starts. The pointer section follows the data
    /// section.
    pub start: u32,
    /// The numbers of data words and pointers.
    pub size: StructSize,
}

/// Returns the index of the capability that the pointer at `at` of segment `id` holds
/// ("Capabilities (Interfaces)"). Doesn't follow the pointer.
///
/// Refusals: `MessageContainsNullCapabilityPointer` if the pointer is null;
/// `MessageContainsNonCapabilityPointerWhereCapabilityPointerWasExpected` if the pointer is neither
/// null nor a capability pointer itself, even if it is a far pointer to one.
#[inline]
pub fn get_capability<A: BuilderArena>(arena: &A, id: u32, at: u32) -> Result<u32, ErrorKind> {
    let word = pointer_word(arena, id, at);
    if word.is_null() {
        return Err(ErrorKind::MessageContainsNullCapabilityPointer);
    }
    if !word.is_capability() {
        return Err(
            ErrorKind::MessageContainsNonCapabilityPointerWhereCapabilityPointerWasExpected,
        );
    }
    Ok(word.cap_index())
}

/// Finds the struct that the pointer at `at` of segment `id` leads to, with the sizes that its
/// sections have ("Structs"). Returns `None` if the pointer is null, or doesn't lead to a struct.
#[inline(always)]
pub fn get_struct<A: BuilderArena>(arena: &A, id: u32, at: u32) -> Option<ExistingStruct> {
    let word = pointer_word(arena, id, at);
    if word.is_null() {
        return None;
    }
    if word.kind() == WirePointerKind::Far {
        // Takes the call's result apart, so that a near struct doesn't go through memory.
        return match struct_behind_pad(arena, id, at, word) {
            Some(found) => Some(found),
            None => None,
        };
    }
    struct_of(arena, id, at, word)
}

/// Returns the struct that `word` leads to, with the sizes that its sections have; `None` if `word`
/// doesn't lead to a struct. Precondition: `word` is the pointer at `at` of segment `id`, and isn't
/// zero.
///
/// # Preconditions
///
/// ```text
/// requires is { word.0 ≡ word_at (A.view arena.now).words id at }
/// requires some { word.0 ≢ 0 }
/// ```
#[inline(always)]
fn struct_of<A: BuilderArena>(
    arena: &A,
    id: u32,
    at: u32,
    word: WirePointer,
) -> Option<ExistingStruct> {
    match follow_word(arena, id, at, word) {
        Some(landing) => {
            let size = landing.word.struct_size();
            let end = u64::from(landing.start) + u64::from(size.total());
            if landing.word.kind() == WirePointerKind::Struct
                && end <= u64::from(segment_length(arena, landing.segment))
            {
                Some(ExistingStruct {
                    segment: landing.segment,
                    start: landing.start,
                    size,
                })
            } else {
                None
            }
        }
        None => None,
    }
}

/// Like `struct_of`, for a far pointer. Not inlined, because most pointers aren't far.
///
/// # Preconditions
///
/// ```text
/// requires is { word.0 ≡ word_at (A.view arena.now).words id at }
/// requires some { word.0 ≢ 0 }
/// ```
#[cold]
#[inline(never)]
fn struct_behind_pad<A: BuilderArena>(
    arena: &A,
    id: u32,
    at: u32,
    word: WirePointer,
) -> Option<ExistingStruct> {
    struct_of(arena, id, at, word)
}

/// Finds the list that the pointer at `at` of segment `id` leads to ("Lists"). The list's elements
/// have to be at least as wide as `expected`. Returns `None` if the pointer is null. Precondition:
/// `expected` isn't `InlineComposite`.
///
/// Refusals: `ExistingPointerIsNotAList` if the pointer leads to something other than a list;
/// `FoundStructListWhereBitListWasExpected` for a list of structs if bits are expected;
/// `ExistingListValueIsIncompatibleWithExpectedType` for elements with fewer bits of data or fewer
/// pointers than `expected` has, for structs without data words if numbers are expected, and for
/// structs without pointers if pointers are expected.
///
/// # Preconditions
///
/// ```text
/// requires plain { size_number expected ≤ 6 }
/// ```
#[inline]
pub fn get_list<A: BuilderArena>(
    arena: &A,
    id: u32,
    at: u32,
    expected: ElementSize,
) -> Result<Option<ExistingList>, ErrorKind> {
    match follow_list(arena, id, at)? {
        Some(landing) => {
            let size = landing.word.list_element_size();
            if size == ElementSize::InlineComposite {
                struct_list_at(arena, landing, expected)
            } else {
                plain_list_at(landing, size, expected)
            }
        }
        None => Ok(None),
    }
}

/// Finds where the pointer at `at` of segment `id` leads, and tests that it leads to a list.
/// Returns `None` if the pointer is null.
///
/// Refusals: `ExistingPointerIsNotAList` if the pointer leads to something else;
/// `MessageContainsOutOfBoundsPointer` if it leads out of the message, which doesn't happen in a
/// message that a builder made.
#[inline]
fn follow_list<A: BuilderArena>(
    arena: &A,
    id: u32,
    at: u32,
) -> Result<Option<PointerTarget>, ErrorKind> {
    let word = pointer_word(arena, id, at);
    if word.is_null() {
        return Ok(None);
    }
    match follow_word(arena, id, at, word) {
        Some(landing) => {
            if landing.word.kind() == WirePointerKind::List {
                Ok(Some(landing))
            } else {
                Err(ErrorKind::ExistingPointerIsNotAList)
            }
        }
        None => Err(ErrorKind::MessageContainsOutOfBoundsPointer),
    }
}

/// Returns the list at `landing`, whose elements have size `size`. The caller passes a list whose
/// elements aren't structs. Refuses elements that are narrower than `expected`.
#[inline]
fn plain_list_at(
    landing: PointerTarget,
    size: ElementSize,
    expected: ElementSize,
) -> Result<Option<ExistingList>, ErrorKind> {
    if data_bits_per_element(size) < data_bits_per_element(expected)
        || pointers_per_element(size) < pointers_per_element(expected)
    {
        return Err(ErrorKind::ExistingListValueIsIncompatibleWithExpectedType);
    }
    Ok(Some(ExistingList {
        segment: landing.segment,
        start: landing.start,
        size,
        struct_size: StructSize {
            data_words: 0,
            pointers: 0,
        },
        count: landing.word.list_element_count(),
    }))
}

/// Returns the list of structs at `landing`, according to its tag. Refuses structs that can't be
/// read as elements of size `expected`.
#[inline]
fn struct_list_at<A: BuilderArena>(
    arena: &A,
    landing: PointerTarget,
    expected: ElementSize,
) -> Result<Option<ExistingList>, ErrorKind> {
    match tag_at(arena, landing) {
        Some(tag) => {
            let size = tag.struct_size();
            match struct_list_mismatch(expected, size) {
                Some(k) => Err(k),
                None => Ok(Some(ExistingList {
                    segment: landing.segment,
                    start: landing.start + 1,
                    size: ElementSize::InlineComposite,
                    struct_size: size,
                    count: tag.inline_composite_list_element_count(),
                })),
            }
        }
        None => Err(ErrorKind::MessageContainsOutOfBoundsPointer),
    }
}

/// Returns the tag of the list of structs at `landing`; `None` if the tag isn't inside the segment.
#[inline]
fn tag_at<A: BuilderArena>(arena: &A, landing: PointerTarget) -> Option<WirePointer> {
    match arena.get_segment(landing.segment) {
        Ok(bytes) => {
            let at = landing.start as usize;
            if at < bytes.len() / 8 {
                Some(WirePointer(words::word_at(bytes, at)))
            } else {
                None
            }
        }
        Err(_) => None,
    }
}

/// Returns why structs of size `size` can't be read as elements of size `expected`; `None` if they
/// can.
#[inline]
fn struct_list_mismatch(expected: ElementSize, size: StructSize) -> Option<ErrorKind> {
    match expected {
        ElementSize::Bit => Some(ErrorKind::FoundStructListWhereBitListWasExpected),
        ElementSize::Byte
        | ElementSize::TwoBytes
        | ElementSize::FourBytes
        | ElementSize::EightBytes
            if size.data_words == 0 =>
        {
            Some(ErrorKind::ExistingListValueIsIncompatibleWithExpectedType)
        }
        ElementSize::Pointer if size.pointers == 0 => {
            Some(ErrorKind::ExistingListValueIsIncompatibleWithExpectedType)
        }
        _ => None,
    }
}

/// Finds the data that the pointer at `at` of segment `id` leads to ("Lists"). Returns `None` if
/// the pointer is null.
///
/// Refusals: `ExistingPointerIsNotAList` if the pointer leads to something other than a list;
/// `ExistingListPointerIsNotByteSized` if the list's elements aren't bytes.
#[inline]
pub fn get_data<A: BuilderArena>(
    arena: &A,
    id: u32,
    at: u32,
) -> Result<Option<ExistingBytes>, ErrorKind> {
    match follow_list(arena, id, at)? {
        Some(landing) => {
            if landing.word.list_element_size() != ElementSize::Byte {
                return Err(ErrorKind::ExistingListPointerIsNotByteSized);
            }
            Ok(Some(ExistingBytes {
                segment: landing.segment,
                start: landing.start,
                length: landing.word.list_element_count(),
            }))
        }
        None => Ok(None),
    }
}

/// Finds the text that the pointer at `at` of segment `id` leads to, without the zero byte at its
/// end ("Lists"). Returns `None` if the pointer is null.
///
/// Refusals: those of `get_data`, if the pointer doesn't lead to a list of bytes;
/// `TextBlobMissingNULTerminator` if the bytes don't end in a zero byte.
#[inline]
pub fn get_text<A: BuilderArena>(
    arena: &A,
    id: u32,
    at: u32,
) -> Result<Option<ExistingBytes>, ErrorKind> {
    match get_data(arena, id, at)? {
        Some(bytes) => {
            if !is_nul_terminated(arena, bytes) {
                return Err(ErrorKind::TextBlobMissingNULTerminator);
            }
            Ok(Some(ExistingBytes {
                segment: bytes.segment,
                start: bytes.start,
                length: bytes.length - 1,
            }))
        }
        None => Ok(None),
    }
}

/// Whether the segment of `bytes` exists, and has all these bytes.
#[inline]
pub fn are_inside<A: BuilderArena>(arena: &A, bytes: ExistingBytes) -> bool {
    match arena.get_segment(bytes.segment) {
        Ok(segment) => {
            let end = bytes.start as usize + (bytes.length as usize).div_ceil(8);
            end <= segment.len() / 8
        }
        Err(_) => false,
    }
}

/// Whether there is at least one byte at `bytes`, and the last one is 0.
#[inline]
fn is_nul_terminated<A: BuilderArena>(arena: &A, bytes: ExistingBytes) -> bool {
    match arena.get_segment(bytes.segment) {
        Ok(segment) => last_is_zero(segment, bytes.start, bytes.length),
        Err(_) => false,
    }
}

/// Whether `count` isn't 0, and the last of the `count` bytes from word `start` of `segment` on is
/// inside `segment` and is 0.
#[inline]
fn last_is_zero(segment: &[u8], start: u32, count: u32) -> bool {
    if count == 0 {
        return false;
    }
    let last = 8 * start as usize + count as usize - 1;
    last < segment.len() && segment[last] == 0
}
