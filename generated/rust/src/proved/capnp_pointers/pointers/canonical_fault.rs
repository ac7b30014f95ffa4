//! Where and why a message isn't in canonical form (encoding specification, "Canonicalization").

use core::fmt;

/// The word at which a test for canonical form stopped, and why. `{}` writes
/// `REASON at segment SEGMENT, word WORD`.
#[derive(Clone, Copy, Debug, PartialEq, Eq)]
pub struct CanonicalFault {
    /// The segment's number: below 2^32 in an arena; 2^32 for a field's default value.
    pub segment: u64,
    /// The position in the segment, in words. The comment of each reason states which word this is.
    pub word: u32,
    /// Why the test stopped there.
    pub reason: CanonicalFaultReason,
}

impl core::error::Error for CanonicalFault {}

/// Why a message isn't in canonical form at a word. `{}` writes the reason's `text`.
#[derive(Clone, Copy, Debug, PartialEq, Eq)]
pub enum CanonicalFaultReason {
    /// There isn't exactly one segment. The word is the first of segment 1, or of segment 0 if
    /// there are no segments.
    SegmentCount,
    /// There is no word for the pointer. The word is where the pointer would be.
    NoPointer,
    /// The word is a far pointer.
    FarPointer,
    /// The word is a capability.
    Capability,
    /// The word is a pointer of an unknown kind.
    UnknownPointer,
    /// A struct without words doesn't start at its pointer. The word is the pointer.
    EmptyStructPlace,
    /// An object doesn't start right after the previous object. The word is the pointer to the
    /// misplaced object.
    ObjectPlace,
    /// The bits after the last number of a list aren't zero. The word is the one with these bits.
    Padding,
    /// The last word of a data section is zero. The word is this one.
    DataSection,
    /// The last pointer of a pointer section is null. The word is this one.
    PointerSection,
    /// The elements of a list of structs take more or fewer words than the list's pointer claims.
    /// The word is the tag.
    ElementWords,
    /// The elements of a list of structs have more data words than any of them uses. The word is
    /// the tag.
    ElementData,
    /// The elements of a list of structs have more pointers than any of them uses. The word is the
    /// tag.
    ElementPointers,
    /// There are words after the value. The word is the first of these.
    WordsBehind,
}

impl core::error::Error for CanonicalFaultReason {}

impl CanonicalFaultReason {
    /// The reason as text.
    #[inline]
    pub fn text(&self) -> &'static str {
        match self {
            CanonicalFaultReason::SegmentCount => "a number of segments other than one",
            CanonicalFaultReason::NoPointer => "no word where a pointer should be",
            CanonicalFaultReason::FarPointer => "a far pointer",
            CanonicalFaultReason::Capability => "a capability",
            CanonicalFaultReason::UnknownPointer => "a pointer of an unknown kind",
            CanonicalFaultReason::EmptyStructPlace => {
                "a pointer to an empty struct with an offset other than -1"
            }
            CanonicalFaultReason::ObjectPlace => {
                "a pointer to an object that isn't directly next in order"
            }
            CanonicalFaultReason::Padding => "a list whose padding isn't zero",
            CanonicalFaultReason::DataSection => "a data section whose last word is zero",
            CanonicalFaultReason::PointerSection => "a pointer section whose last pointer is null",
            CanonicalFaultReason::ElementWords => {
                "a list of structs whose pointer claims more words than its elements take"
            }
            CanonicalFaultReason::ElementData => {
                "a list of structs with more data words than any element needs"
            }
            CanonicalFaultReason::ElementPointers => {
                "a list of structs with more pointers than any element needs"
            }
            CanonicalFaultReason::WordsBehind => "words after the value",
        }
    }
}

impl fmt::Display for CanonicalFaultReason {
    #[inline]
    fn fmt(&self, f: &mut fmt::Formatter<'_>) -> fmt::Result {
        write!(f, "{}", self.text())
    }
}

impl fmt::Display for CanonicalFault {
    #[inline]
    fn fmt(&self, f: &mut fmt::Formatter<'_>) -> fmt::Result {
        let (segment, word, text) = (self.segment, self.word, self.reason.text());
        write!(f, "{text} at segment {segment}, word {word}")
    }
}
