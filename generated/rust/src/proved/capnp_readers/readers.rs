//! Readers: pointers, structs and lists of a message, read in place.

mod canonical;
mod list_reader;
mod primitive_element;
mod sizes;
mod struct_reader;
mod target;

use crate::proved::capnp_arena_traits::arena::ReaderArena;
use crate::proved::capnp_pointers::object::{Expected, Object, Place};
use crate::proved::capnp_pointers::pointers::Pointer;
pub use crate::proved::capnp_pointers::pointers::{
    CanonicalFault, CanonicalFaultReason, MessageSize, PointerPlace,
};
use crate::proved::capnp_pointers::source::Source;
use crate::proved::capnp_words::error::ErrorKind;
use crate::proved::capnp_words::read_limiter::ReadLimiter;
use crate::proved::capnp_words::wire_pointer::{ElementSize, PointerType, StructSize};
pub use list_reader::{ListPlace, ListReader};
pub use primitive_element::PrimitiveElement;
pub use struct_reader::{StructPlace, StructReader};
pub use target::Target;

/// The segment number that the places of pointers in a field's default value have. It is above all
/// segment numbers that a far pointer can hold.
pub const DEFAULT_SEGMENT: u64 = 0x1_0000_0000;

// The sections of elements that aren't structs.
const NO_SECTIONS: StructSize = StructSize {
    data_words: 0,
    pointers: 0,
};

/// A pointer being read, with the bytes of its segment.
///
/// Required of the fields: `place.bytes` has exactly the whole words of segment `place.segment` of
/// `source`, fewer than 2^32.
pub struct PointerReader<'a, A: ReaderArena> {
    /// What the pointer is read from.
    pub source: Source<'a, A>,
    /// Where the pointer's word is.
    pub place: Place<'a>,
    /// The nesting limit: how many levels of structs and lists may be entered from here; none if it
    /// is below 1.
    pub nesting_limit: i32,
}

impl<'a, A: ReaderArena> Clone for PointerReader<'a, A> {
    #[inline]
    fn clone(&self) -> Self {
        *self
    }
}

impl<'a, A: ReaderArena> Copy for PointerReader<'a, A> {}

impl<'a, A: ReaderArena> PointerReader<'a, A> {
    /// Returns a null pointer that isn't in any message: its source is `Source::Nothing`, its place
    /// word 0 of segment 0, and its nesting limit `i32::MAX`. A pointer field that its struct
    /// doesn't have is read as this pointer, "from nothing".
    #[inline]
    pub fn new_default() -> Self {
        Self::from_pointer(Pointer::new_default())
    }

    /// Returns the root pointer of a message, word 0 of segment 0 (encoding specification,
    /// "Messages"). Charges `lim` this one word, unless `arena` is a message being built. The
    /// reader's nesting limit is the arena's.
    ///
    /// Refusals: `MessageContainsOutOfBoundsPointer` if segment 0 has no word;
    /// `InvalidSegmentId(0)` if there is no segment; `TriedToReadFromNullArena` in a `NullArena`;
    /// `ReadLimitExceeded` if the limiter has no word left. A refusal leaves the limiter unchanged.
    #[inline]
    pub fn get_root_from_arena(arena: &'a A, lim: &mut ReadLimiter) -> Result<Self, ErrorKind> {
        Ok(Self::from_pointer(Pointer::get_root_from_arena(
            arena, lim,
        )?))
    }

    /// Returns a reader of the pointer at `place` of `arena`. Precondition: `place` is inside a
    /// segment of `arena`.
    ///
    /// # Preconditions
    ///
    /// ```text
    /// requires { IsPlace (message (A.segments arena.now)) place.segment place.word }
    /// ```
    #[inline]
    pub fn at(arena: &'a A, place: PointerPlace, nesting_limit: i32) -> Self {
        Self::from_pointer(Pointer::at(arena, place, nesting_limit))
    }

    /// Returns a reader of the pointer in the first word of `bytes`, a field's default value.
    /// `bytes` is one segment, to which no far pointer leads; up to 7 bytes after its last whole
    /// word are ignored. Reading the pointer charges nothing, and its nesting limit is `i32::MAX`.
    /// Precondition: `bytes` has fewer than 2^32 words.
    ///
    /// Refuses with `MessageContainsOutOfBoundsPointer` if `bytes` has fewer than 8 bytes.
    ///
    /// # Preconditions
    ///
    /// ```text
    /// requires { length bytes.now / 8 < 2 ^ 32 }
    /// ```
    #[inline]
    pub fn from_default(bytes: &'a [u8]) -> Result<Self, ErrorKind> {
        let words = bytes.len() / 8;
        if words == 0 {
            return Err(ErrorKind::MessageContainsOutOfBoundsPointer);
        }
        Ok(PointerReader {
            source: Source::Default(bytes),
            place: Place {
                segment: DEFAULT_SEGMENT,
                bytes: &bytes[..8 * words],
                at: 0,
            },
            nesting_limit: i32::MAX,
        })
    }

    /// Returns another reader of this pointer.
    #[inline]
    pub fn reborrow(&self) -> Self {
        *self
    }

    /// Returns this pointer as a `Pointer`, the type whose calls copy the pointer's value, count
    /// its words, and test whether it is in canonical form.
    #[inline(always)]
    pub fn pointer(self) -> Pointer<'a, A> {
        Pointer {
            source: self.source,
            place: self.place,
            nesting_limit: self.nesting_limit,
        }
    }

    /// Returns a reader of `pointer`.
    #[inline(always)]
    pub fn from_pointer(pointer: Pointer<'a, A>) -> Self {
        PointerReader {
            source: pointer.source,
            place: pointer.place,
            nesting_limit: pointer.nesting_limit,
        }
    }

    /// Whether the pointer's word is zero, or there is no such word.
    #[inline]
    pub fn is_null(&self) -> bool {
        self.place.word().is_null()
    }

    /// # Preconditions
    ///
    /// ```text
    /// requires null { word_of (read_by A.ReaderArena self) ≡ 0 }
    /// requires small { length bytes.now / 8 < 2 ^ 32 }
    /// ```
    // The pointer of a default, in place of this one, which is null.
    #[inline(never)]
    fn default_pointer(self, expected: Expected, bytes: &'a [u8]) -> Result<Self, ErrorKind> {
        let default = Self::from_default(bytes)?;
        let from = PointerReader {
            source: default.source,
            place: default.place,
            nesting_limit: self.nesting_limit,
        };
        if !from.is_null() {
            return Ok(from);
        }
        match null_default_error(expected) {
            Some(kind) => Err(kind),
            None => Ok(from),
        }
    }

    /// # Preconditions
    ///
    /// ```text
    /// requires small { IfSome default (λ bytes. length bytes.now / 8 < 2 ^ 32) }
    /// ```
    // The pointer that a call reads: this one, or that of the default if this one is null.
    #[inline(always)]
    fn or_default(self, expected: Expected, default: Option<&'a [u8]>) -> Result<Self, ErrorKind> {
        match default {
            None => Ok(self),
            Some(bytes) => {
                if self.is_null() {
                    self.default_pointer(expected, bytes)
                } else {
                    Ok(self)
                }
            }
        }
    }

    /// # Preconditions
    ///
    /// ```text
    /// requires small { IfSome default (λ bytes. length bytes.now / 8 < 2 ^ 32) }
    /// ```
    // The pointer that a call reads, and what it leads to.
    #[inline(always)]
    fn read_as_expected(
        self,
        expected: Expected,
        lim: &mut ReadLimiter,
        default: Option<&'a [u8]>,
    ) -> Result<(Self, Object<'a>), ErrorKind> {
        let from = self.or_default(expected, default)?;
        let object = from
            .source
            .read_expected(expected, from.place, from.nesting_limit, lim)?;
        Ok((from, object))
    }

    /// Returns the struct that the pointer leads to ("Structs"). If the pointer is null, returns
    /// the struct of `default`. If there is no default either, or the default's pointer is null
    /// too, returns a struct without sections.
    ///
    /// Takes a level: the struct's nesting limit is one less than that of `self`. If the pointer
    /// isn't null, counts it in `lim` as followed, and charges `lim` the words of its landing pads
    /// and of the struct, before it reads them.
    ///
    /// Refusals: `MessageIsTooDeeplyNestedOrContainsCycles` if the nesting limit of `self` is below
    /// 1; `MessageContainsNonStructPointerWhereStructPointerWasExpected` if the pointer leads to
    /// something other than a struct; `MessageContainsOutOfBoundsPointer` if a landing pad or the
    /// struct is outside of its segment; `InvalidSegmentId` if a far pointer names a segment that
    /// doesn't exist; `ReadLimitExceeded` if `lim` has fewer words left than the call has to
    /// charge; for a malformed landing pad, those of `PointerReader::next`. What was charged before
    /// a refusal stays charged.
    ///
    /// `default` is one segment with its pointer in word 0. It is read only if `self` is null, with
    /// the nesting limit of `self`; reading it counts and charges nothing. Refuses a default under
    /// 8 bytes with `MessageContainsOutOfBoundsPointer`, and one whose pointer is a far pointer
    /// with `TriedToReadFromNullArena`. Precondition: `default` has fewer than 2^32 words.
    ///
    /// # Preconditions
    ///
    /// ```text
    /// requires small { IfSome default (λ bytes. length bytes.now / 8 < 2 ^ 32) }
    /// ```
    #[inline(always)]
    pub fn get_struct(
        self,
        lim: &mut ReadLimiter,
        default: Option<&'a [u8]>,
    ) -> Result<StructReader<'a, A>, ErrorKind> {
        let found = self.read_as_expected(Expected::Struct, lim, default)?;
        let (from, object) = found;
        match from.target_of(object) {
            Target::Struct(found) => Ok(found),
            _ => Ok(StructReader::new_default()),
        }
    }

    /// Returns the list that the pointer leads to ("Lists"). Its elements have to be as wide as
    /// `expected_element_size` or wider, and keep their own width in the list returned. `Void` and
    /// `InlineComposite` accept elements of any width except bits. If the pointer is null, returns
    /// the list of `default`. If there is no default either, or the default's pointer is null too,
    /// returns a list of void without elements.
    ///
    /// Precondition: `default` has fewer than 2^32 words.
    ///
    /// Takes a level: the list's nesting limit is one less than that of `self`. Refuses with
    /// `NestingLimitExceeded` if the nesting limit of `self` is below 1. Otherwise counts, charges
    /// and refuses like `PointerReader::next`, except for an object that isn't a list: refuses it
    /// with `MessageContainsNonListPointerWhereListPointerWasExpected`, before its words are
    /// charged.
    ///
    /// Refusals after all words are charged: `FoundBitListWhereStructListWasExpected` for a list of
    /// bits, unless bits are expected; `MessageContainsListWithIncompatibleElementType` for other
    /// elements that are too narrow. For a list of structs:
    /// `FoundStructListWhereBitListWasExpected` if bits are expected;
    /// `ExpectedAPrimitiveListButGotAListOfPointerOnlyStructs` if numbers are expected and the
    /// structs have no data; `ExpectedAPointerListButGotAListOfDataOnlyStructs` if pointers are
    /// expected and the structs have no pointers.
    ///
    /// `default` is read as in `PointerReader::get_struct`.
    ///
    /// # Preconditions
    ///
    /// ```text
    /// requires small { IfSome default (λ bytes. length bytes.now / 8 < 2 ^ 32) }
    /// ```
    #[inline]
    pub fn get_list(
        self,
        lim: &mut ReadLimiter,
        expected_element_size: ElementSize,
        default: Option<&'a [u8]>,
    ) -> Result<ListReader<'a, A>, ErrorKind> {
        let expected = Expected::List(expected_element_size);
        let found = self.read_as_expected(expected, lim, default)?;
        let (from, object) = found;
        match from.target_of(object) {
            Target::List(found) => Ok(found),
            _ => Ok(ListReader::new_default()),
        }
    }

    /// Returns the bytes of the text that the pointer leads to, as a slice of the message, without
    /// the zero byte at the text's end ("Lists"). If the pointer is null, returns the text of
    /// `default`, or no bytes if there is no default. Precondition: `default` has fewer than 2^32
    /// words.
    ///
    /// Takes no level of the nesting limit. If the pointer isn't null, counts it in `lim` as
    /// followed, and charges `lim` the words of its landing pads and of the bytes, before it reads
    /// them.
    ///
    /// Refusals before the words of the bytes are charged:
    /// `MessageContainsNonListPointerWhereTextWasExpected` if the object isn't a list;
    /// `MessageContainsListPointerOfNonBytesWhereTextWasExpected` if the list's elements aren't
    /// bytes. Refusal after these words are charged: `MessageContainsTextThatIsNotNULTerminated` if
    /// there are no bytes or the last byte isn't 0. Other refusals are those of
    /// `PointerReader::next`.
    ///
    /// `default` is read as in `PointerReader::get_struct`. A default whose pointer is null is
    /// refused like an object that isn't a list.
    ///
    /// # Preconditions
    ///
    /// ```text
    /// requires small { IfSome default (λ bytes. length bytes.now / 8 < 2 ^ 32) }
    /// ```
    #[inline(always)]
    pub fn get_text(
        self,
        lim: &mut ReadLimiter,
        default: Option<&'a [u8]>,
    ) -> Result<&'a [u8], ErrorKind> {
        let found = self.read_as_expected(Expected::Text, lim, default)?;
        match found.1 {
            Object::Flat { start, count, .. } => {
                let bytes = bytes_at(start, count - 1);
                bytes_are_below_256(bytes);
                Ok(bytes)
            }
            _ => Ok(&[]),
        }
    }

    /// Returns the bytes of the data that the pointer leads to, as a slice of the message
    /// ("Lists"). If the pointer is null, returns the data of `default`, or no bytes if there is no
    /// default. Precondition: `default` has fewer than 2^32 words.
    ///
    /// Counts, charges and refuses like `PointerReader::get_text`, with three differences. The data
    /// may be empty, and its last byte, which can have any value, is returned as well. An object
    /// that isn't a list is refused with `MessageContainsNonListPointerWhereDataWasExpected`. A
    /// list whose elements aren't bytes is refused with
    /// `MessageContainsListPointerOfNonBytesWhereDataWasExpected`.
    ///
    /// # Preconditions
    ///
    /// ```text
    /// requires small { IfSome default (λ bytes. length bytes.now / 8 < 2 ^ 32) }
    /// ```
    #[inline]
    pub fn get_data(
        &self,
        lim: &mut ReadLimiter,
        default: Option<&'a [u8]>,
    ) -> Result<&'a [u8], ErrorKind> {
        let found = self.read_as_expected(Expected::Data, lim, default)?;
        match found.1 {
            Object::Flat { start, count, .. } => {
                let bytes = bytes_at(start, count);
                bytes_are_below_256(bytes);
                Ok(bytes)
            }
            _ => Ok(&[]),
        }
    }

    /// Returns the index of the pointer's capability in the message's capability table
    /// ("Capabilities (Interfaces)"). Doesn't follow the pointer, and counts and charges nothing.
    ///
    /// Refusals: `MessageContainsNullCapabilityPointer` if the pointer is null;
    /// `MessageContainsNonCapabilityPointerWhereCapabilityPointerWasExpected` if the pointer is
    /// neither null nor a capability pointer itself, even if it is a far pointer to one.
    #[inline]
    pub fn get_capability(&self) -> Result<u32, ErrorKind> {
        let word = self.place.word();
        if word.is_null() {
            return Err(ErrorKind::MessageContainsNullCapabilityPointer);
        }
        if !word.is_capability() {
            return Err(
                ErrorKind::MessageContainsNonCapabilityPointerWhereCapabilityPointerWasExpected,
            );
        }
        Ok(word.cap_index())
    }

    /// Returns what the pointer leads to: nothing, a struct, a list or a capability. The answer is
    /// the kind of the word that describes the object: of the pointer itself, of its landing pad,
    /// or, for a double-far pointer, of the landing pad's second word. The object itself is neither
    /// checked nor charged.
    ///
    /// If the pointer isn't null, counts it in `lim` as followed, and charges `lim` the words of
    /// its landing pads. If it is null, or in a default value, or in an arena that is being built,
    /// counts and charges nothing. Refusals: `UnexpectedFarPointer` if the word that describes the
    /// object is a far pointer; `UnknownPointerType` if that word is of no known kind; those of
    /// `PointerReader::next` if the pointer can't be followed to that word.
    #[inline]
    pub fn get_pointer_type(&self, lim: &mut ReadLimiter) -> Result<PointerType, ErrorKind> {
        self.source.read_type(self.place, self.nesting_limit, lim)
    }

    /// Returns what the pointer leads to: one object, without its children ("Structs", "Lists",
    /// "Inter-Segment Pointers", "Capabilities (Interfaces)").
    ///
    /// If the pointer isn't null, counts it in `lim` as followed, and charges `lim` the words of
    /// its landing pads, the object's own words, and one word for each list element without width,
    /// before it reads them. If the pointer is null, or in a default value, or in an arena that is
    /// being built, nothing is counted or charged. Refuses with the first fault found, like
    /// `Source::read_object`; what was charged before stays charged.
    #[inline]
    pub fn next(&self, lim: &mut ReadLimiter) -> Result<Target<'a, A>, ErrorKind> {
        let object = self
            .source
            .read_object(self.place, self.nesting_limit, lim)?;
        Ok(self.target_of(object))
    }

    /// # Preconditions
    ///
    /// ```text
    /// requires read { (m : Meter) × (m' : Meter)
    ///     × IsObject Value (read_by A.ReaderArena self) m m' object }
    /// ```
    // The object that the pointer leads to, as a reader of the same source with one level less.
    #[inline(always)]
    fn target_of(self, object: Object<'a>) -> Target<'a, A> {
        match object {
            Object::Null => Target::Null,
            Object::Capability(index) => Target::Cap(index),
            Object::Struct { start, size } => Target::Struct(StructReader::starting_at(
                self.source,
                start,
                size,
                self.nesting_limit - 1,
            )),
            Object::Flat { start, size, count } => Target::List(ListReader::starting_at(
                self.source,
                start,
                size,
                NO_SECTIONS,
                count,
                self.nesting_limit - 1,
            )),
            Object::Pointers { start, count } => Target::List(ListReader::starting_at(
                self.source,
                start,
                ElementSize::Pointer,
                NO_SECTIONS,
                count,
                self.nesting_limit - 1,
            )),
            Object::Structs { start, size, count } => Target::List(ListReader::starting_at(
                self.source,
                start,
                ElementSize::InlineComposite,
                size,
                count,
                self.nesting_limit - 1,
            )),
        }
    }
}

/// # Preconditions
///
/// ```text
/// requires { 8 * start.at + count ≤ length start.bytes.now }
/// ```
// The `count` bytes from a place on.
#[inline]
fn bytes_at<'a>(start: Place<'a>, count: u32) -> &'a [u8] {
    let first = 8 * start.at as usize;
    &start.bytes[first..first + count as usize]
}

// Each byte is below 256. Does nothing; its contract is that fact.
#[inline(always)]
fn bytes_are_below_256(bytes: &[u8]) {}

// The refusal of a default whose pointer is null; for a struct and a list, it is like no default.
#[inline]
fn null_default_error(expected: Expected) -> Option<ErrorKind> {
    match expected {
        Expected::Struct | Expected::List(_) => None,
        Expected::Text => Some(ErrorKind::MessageContainsNonListPointerWhereTextWasExpected),
        Expected::Data => Some(ErrorKind::MessageContainsNonListPointerWhereDataWasExpected),
    }
}
