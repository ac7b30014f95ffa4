//! Reads an object that has to be of an expected kind: a struct, a list of elements that are wide
//! enough, a text, or data.

use super::landing::Entrance;
use super::Source;
use crate::proved::capnp_arena_traits::arena::ReaderArena;
use crate::proved::capnp_pointers::nesting::levels_left;
use crate::proved::capnp_pointers::object::{Expected, Object, Place, PointerWord, Purpose};
use crate::proved::capnp_words::error::ErrorKind;
use crate::proved::capnp_words::read_limiter::ReadLimiter;
use crate::proved::capnp_words::wire_pointer::{
    data_bits_per_element, ElementSize, StructSize, WirePointer, WirePointerKind,
};
use crate::proved::capnp_words::words::word_at;

impl<'a, A: ReaderArena> Source<'a, A> {
    /// Reads the object that the pointer at `place` leads to, and refuses the object if it isn't
    /// what `expected` says (encoding specification, "Structs" and "Lists"). Precondition:
    /// `place.bytes` has exactly the whole words of segment `place.segment` of `self`, fewer than
    /// 2^32.
    ///
    /// If the word at `place` is zero, returns `Object::Null`, and counts and charges nothing in
    /// `lim`. Otherwise checks, counts and charges like `Source::read_object`, except as follows.
    ///
    /// If `nesting_limit` is below 1 and a struct or a list is expected, refuses before the pointer
    /// is followed: with `MessageIsTooDeeplyNestedOrContainsCycles` for a struct, and with
    /// `NestingLimitExceeded` for a list. A text and data require no level. An object of another
    /// kind is refused after its landing pads are charged and before its own words are. A list
    /// whose elements are too narrow, or a text that doesn't end in a zero byte, is refused after
    /// its own words are charged as well.
    ///
    /// # Preconditions
    ///
    /// ```text
    /// requires held { IsHeld (source_start A.ReaderArena self).segments place }
    /// ```
    #[inline(always)]
    pub fn read_expected(
        self,
        expected: Expected,
        place: Place<'a>,
        nesting_limit: i32,
        lim: &mut ReadLimiter,
    ) -> Result<Object<'a>, ErrorKind> {
        self.read_as_expected(expected, place, nesting_limit, lim)
    }

    /// # Preconditions
    ///
    /// ```text
    /// requires { IsHeld (source_start A.ReaderArena self).segments place }
    /// ```
    // Reads the object that the pointer at a place leads to, if it is as expected.
    #[inline(always)]
    fn read_as_expected(
        self,
        expected: Expected,
        place: Place<'a>,
        nesting_limit: i32,
        lim: &mut ReadLimiter,
    ) -> Result<Object<'a>, ErrorKind> {
        let word = place.word();
        if word.is_null() {
            return Ok(Object::Null);
        }
        match depth_error(expected, levels_left(nesting_limit)) {
            Some(kind) => return Err(kind),
            None => {}
        }
        let pointer = PointerWord {
            place,
            word,
            nesting_limit,
        };
        let found = self.follow(pointer, lim)?;
        let entrance = Entrance {
            source: self,
            found,
            depth: 1,
        };
        entrance.enter_expected(expected, lim)
    }
}

impl<'a, A: ReaderArena> Entrance<'a, A> {
    // Enters the object that a pointer leads to, if it is as expected.
    #[inline(always)]
    fn enter_expected(
        self,
        expected: Expected,
        lim: &mut ReadLimiter,
    ) -> Result<Object<'a>, ErrorKind> {
        match kind_error(expected, self.found.word) {
            Some(kind) => return Err(kind),
            None => {}
        }
        let object = self.enter(Purpose::Value, lim)?;
        match mismatch_error(expected, object) {
            Some(kind) => Err(kind),
            None => Ok(object),
        }
    }
}

// The refusal for having `depth` levels left, if that is too few for what is expected.
#[inline(always)]
fn depth_error(expected: Expected, depth: u32) -> Option<ErrorKind> {
    match expected {
        Expected::Struct if depth == 0 => Some(ErrorKind::MessageIsTooDeeplyNestedOrContainsCycles),
        Expected::List(_) if depth == 0 => Some(ErrorKind::NestingLimitExceeded),
        _ => None,
    }
}

// The refusal for a word that describes an object of another kind than expected, if it does.
#[inline(always)]
fn kind_error(expected: Expected, word: WirePointer) -> Option<ErrorKind> {
    let is_list = word.kind() == WirePointerKind::List;
    let is_bytes = word.list_element_size() == ElementSize::Byte;
    match expected {
        Expected::Struct if word.kind() != WirePointerKind::Struct => {
            Some(ErrorKind::MessageContainsNonStructPointerWhereStructPointerWasExpected)
        }
        Expected::List(_) if !is_list => {
            Some(ErrorKind::MessageContainsNonListPointerWhereListPointerWasExpected)
        }
        Expected::Text if !is_list => {
            Some(ErrorKind::MessageContainsNonListPointerWhereTextWasExpected)
        }
        Expected::Text if !is_bytes => {
            Some(ErrorKind::MessageContainsListPointerOfNonBytesWhereTextWasExpected)
        }
        Expected::Data if !is_list => {
            Some(ErrorKind::MessageContainsNonListPointerWhereDataWasExpected)
        }
        Expected::Data if !is_bytes => {
            Some(ErrorKind::MessageContainsListPointerOfNonBytesWhereDataWasExpected)
        }
        _ => None,
    }
}

/// # Preconditions
///
/// ```text
/// requires { IsAtHand object }
/// ```
// The refusal for an object of the right kind that isn't as expected, if it isn't.
#[inline(always)]
fn mismatch_error(expected: Expected, object: Object) -> Option<ErrorKind> {
    match (expected, object) {
        (Expected::List(size), Object::Flat { size: found, .. }) => {
            narrow_elements_error(size, found)
        }
        (Expected::List(size), Object::Pointers { .. }) => {
            narrow_elements_error(size, ElementSize::Pointer)
        }
        (Expected::List(size), Object::Structs { size: sections, .. }) => {
            narrow_structs_error(size, sections)
        }
        (
            Expected::Text,
            Object::Flat {
                start,
                size: ElementSize::Byte,
                count,
            },
        ) if !ends_in_zero(start.bytes, start.at, count) => {
            Some(ErrorKind::MessageContainsTextThatIsNotNULTerminated)
        }
        _ => None,
    }
}

/// # Preconditions
///
/// ```text
/// requires { 8 * (start + words_for 2 count) ≤ length bytes.now }
/// ```
// Whether the `count` bytes from word `start` of a segment on end in a zero byte.
#[inline]
fn ends_in_zero(bytes: &[u8], start: u32, count: u32) -> bool {
    if count == 0 {
        return false;
    }
    let last = (count - 1) as usize;
    let word = word_at(bytes, start as usize + last / 8);
    word >> (8 * (last % 8)) & 0xff == 0
}

/// # Preconditions
///
/// ```text
/// requires { size_number found < 7 }
/// ```
// The refusal for elements of a list that are too narrow, if they are.
#[inline]
fn narrow_elements_error(expected: ElementSize, found: ElementSize) -> Option<ErrorKind> {
    if found == ElementSize::Bit && expected != ElementSize::Bit {
        return Some(ErrorKind::FoundBitListWhereStructListWasExpected);
    }
    let is_wide = data_bits_per_element(found) >= data_bits_per_element(expected);
    if is_wide && (expected != ElementSize::Pointer || found == ElementSize::Pointer) {
        None
    } else {
        Some(ErrorKind::MessageContainsListWithIncompatibleElementType)
    }
}

// The refusal for sections of a list of structs that are too narrow, if they are.
#[inline]
fn narrow_structs_error(expected: ElementSize, sections: StructSize) -> Option<ErrorKind> {
    match expected {
        ElementSize::Void | ElementSize::InlineComposite => None,
        ElementSize::Bit => Some(ErrorKind::FoundStructListWhereBitListWasExpected),
        ElementSize::Pointer if sections.pointers == 0 => {
            Some(ErrorKind::ExpectedAPointerListButGotAListOfDataOnlyStructs)
        }
        ElementSize::Pointer => None,
        _ if sections.data_words == 0 => {
            Some(ErrorKind::ExpectedAPrimitiveListButGotAListOfPointerOnlyStructs)
        }
        _ => None,
    }
}
