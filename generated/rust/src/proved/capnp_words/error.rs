//! Why a call is refused: one name for each fault of a message, and for lack of memory or room.

use core::fmt;

/// The refusal of a call. `{}` writes the variant's name, followed by its number in parentheses, if
/// it has one.
#[derive(Clone, Copy, Debug, PartialEq, Eq)]
pub enum ErrorKind {
    /// Memory ran out, or the allocator refused to grant another segment.
    AllocationFailed,
    /// The value to copy in canonical form holds a capability.
    CannotCreateACanonicalMessageWithACapability,
    /// The total size of a value was requested, and the tag of a struct list isn't that of a
    /// struct.
    CantHandleNonStructInlineComposite,
    /// A text or data was expected for writing in place, and the pointer leads to a list of
    /// elements that aren't bytes.
    ExistingListPointerIsNotByteSized,
    /// A list was expected for writing in place, and the elements of the list that is there have
    /// less data, or fewer pointers, than the expected ones.
    ExistingListValueIsIncompatibleWithExpectedType,
    /// A list, a text or data was expected for writing in place, and the pointer leads to something
    /// else.
    ExistingPointerIsNotAList,
    /// A list of pointers was expected, and the pointer leads to a list of structs without
    /// pointers.
    ExpectedAPointerListButGotAListOfDataOnlyStructs,
    /// A list of numbers was expected, and the pointer leads to a list of structs without data.
    ExpectedAPrimitiveListButGotAListOfPointerOnlyStructs,
    /// A list of bits was found instead of a list with elements of another size.
    FoundBitListWhereStructListWasExpected,
    /// A list of structs was found instead of a list of bits.
    FoundStructListWhereBitListWasExpected,
    /// The elements of a struct list take more words than its pointer claims.
    InlineCompositeListsElementsOverrunItsWordCount,
    /// The tag of a struct list isn't that of a struct.
    InlineCompositeListsOfNonStructTypeAreNotSupported,
    /// The message doesn't have this segment.
    InvalidSegmentId(u32),
    /// A one-word landing pad, or the tag of a two-word landing pad, is itself a far pointer.
    MalformedDoubleFarPointer,
    /// Data was expected, and the pointer leads to a list of elements that aren't bytes.
    MessageContainsListPointerOfNonBytesWhereDataWasExpected,
    /// A text was expected, and the pointer leads to a list of elements that aren't bytes.
    MessageContainsListPointerOfNonBytesWhereTextWasExpected,
    /// The elements of a list have less data, or fewer pointers, than the expected ones.
    MessageContainsListWithIncompatibleElementType,
    /// A capability was expected, and the pointer is something else.
    MessageContainsNonCapabilityPointerWhereCapabilityPointerWasExpected,
    /// Data was expected, and the pointer doesn't lead to a list.
    MessageContainsNonListPointerWhereDataWasExpected,
    /// A list was expected, and the pointer doesn't lead to one.
    MessageContainsNonListPointerWhereListPointerWasExpected,
    /// A text was expected, and the pointer doesn't lead to a list.
    MessageContainsNonListPointerWhereTextWasExpected,
    /// A struct was expected, and the pointer doesn't lead to one.
    MessageContainsNonStructPointerWhereStructPointerWasExpected,
    /// A capability was expected, and the pointer is null.
    MessageContainsNullCapabilityPointer,
    /// A pointer leads out of its segment, or to words that are partly outside.
    MessageContainsOutOfBoundsPointer,
    /// A text has no bytes, or its last byte isn't 0.
    MessageContainsTextThatIsNotNULTerminated,
    /// The total size of a value was requested, and its pointers are nested more deeply than the
    /// nesting limit.
    MessageIsTooDeeplyNested,
    /// Structs, or the values that a copy reads, are nested more deeply than the nesting limit.
    /// Pointers in a cycle always are.
    MessageIsTooDeeplyNestedOrContainsCycles,
    /// A request exceeds a limit. Carries the number of words requested, or the limit in words;
    /// `usize::MAX` if there is no such number.
    MessageTooLarge(usize),
    /// Lists are nested more deeply than the nesting limit.
    NestingLimitExceeded,
    /// An edit names a place that doesn't exist or isn't of the kind that the operation is for, or
    /// a number in the edit is out of range.
    NoSuchPlace,
    /// The traversal limit doesn't cover the words to be read.
    ReadLimitExceeded,
    /// A text was expected for writing in place, and its bytes don't end with a 0.
    TextBlobMissingNULTerminator,
    /// There are no segments to read: the value isn't in a message, or is a default value with a
    /// far pointer.
    TriedToReadFromNullArena,
    /// The type of a pointer was requested, and a one-word landing pad, or the tag of a two-word
    /// landing pad, is itself a far pointer.
    UnexpectedFarPointer,
    /// A pointer is of no known kind, or is a capability in a default value.
    UnknownPointerType,
}

impl core::error::Error for ErrorKind {}

/// The result of a call that can be refused.
pub type Result<T> = core::result::Result<T, ErrorKind>;

impl ErrorKind {
    /// The variant's name, without the number.
    pub fn name(&self) -> &'static str {
        match self {
            ErrorKind::AllocationFailed => "AllocationFailed",
            ErrorKind::CannotCreateACanonicalMessageWithACapability => {
                "CannotCreateACanonicalMessageWithACapability"
            }
            ErrorKind::CantHandleNonStructInlineComposite => "CantHandleNonStructInlineComposite",
            ErrorKind::ExistingListPointerIsNotByteSized => "ExistingListPointerIsNotByteSized",
            ErrorKind::ExistingListValueIsIncompatibleWithExpectedType => {
                "ExistingListValueIsIncompatibleWithExpectedType"
            }
            ErrorKind::ExistingPointerIsNotAList => "ExistingPointerIsNotAList",
            ErrorKind::ExpectedAPointerListButGotAListOfDataOnlyStructs => {
                "ExpectedAPointerListButGotAListOfDataOnlyStructs"
            }
            ErrorKind::ExpectedAPrimitiveListButGotAListOfPointerOnlyStructs => {
                "ExpectedAPrimitiveListButGotAListOfPointerOnlyStructs"
            }
            ErrorKind::FoundBitListWhereStructListWasExpected => {
                "FoundBitListWhereStructListWasExpected"
            }
            ErrorKind::FoundStructListWhereBitListWasExpected => {
                "FoundStructListWhereBitListWasExpected"
            }
            ErrorKind::InlineCompositeListsElementsOverrunItsWordCount => {
                "InlineCompositeListsElementsOverrunItsWordCount"
            }
            ErrorKind::InlineCompositeListsOfNonStructTypeAreNotSupported => {
                "InlineCompositeListsOfNonStructTypeAreNotSupported"
            }
            ErrorKind::InvalidSegmentId(_) => "InvalidSegmentId",
            ErrorKind::MalformedDoubleFarPointer => "MalformedDoubleFarPointer",
            ErrorKind::MessageContainsListPointerOfNonBytesWhereDataWasExpected => {
                "MessageContainsListPointerOfNonBytesWhereDataWasExpected"
            }
            ErrorKind::MessageContainsListPointerOfNonBytesWhereTextWasExpected => {
                "MessageContainsListPointerOfNonBytesWhereTextWasExpected"
            }
            ErrorKind::MessageContainsListWithIncompatibleElementType => {
                "MessageContainsListWithIncompatibleElementType"
            }
            ErrorKind::MessageContainsNonCapabilityPointerWhereCapabilityPointerWasExpected => {
                "MessageContainsNonCapabilityPointerWhereCapabilityPointerWasExpected"
            }
            ErrorKind::MessageContainsNonListPointerWhereDataWasExpected => {
                "MessageContainsNonListPointerWhereDataWasExpected"
            }
            ErrorKind::MessageContainsNonListPointerWhereListPointerWasExpected => {
                "MessageContainsNonListPointerWhereListPointerWasExpected"
            }
            ErrorKind::MessageContainsNonListPointerWhereTextWasExpected => {
                "MessageContainsNonListPointerWhereTextWasExpected"
            }
            ErrorKind::MessageContainsNonStructPointerWhereStructPointerWasExpected => {
                "MessageContainsNonStructPointerWhereStructPointerWasExpected"
            }
            ErrorKind::MessageContainsNullCapabilityPointer => {
                "MessageContainsNullCapabilityPointer"
            }
            ErrorKind::MessageContainsOutOfBoundsPointer => "MessageContainsOutOfBoundsPointer",
            ErrorKind::MessageContainsTextThatIsNotNULTerminated => {
                "MessageContainsTextThatIsNotNULTerminated"
            }
            ErrorKind::MessageIsTooDeeplyNested => "MessageIsTooDeeplyNested",
            ErrorKind::MessageIsTooDeeplyNestedOrContainsCycles => {
                "MessageIsTooDeeplyNestedOrContainsCycles"
            }
            ErrorKind::MessageTooLarge(_) => "MessageTooLarge",
            ErrorKind::NestingLimitExceeded => "NestingLimitExceeded",
            ErrorKind::NoSuchPlace => "NoSuchPlace",
            ErrorKind::ReadLimitExceeded => "ReadLimitExceeded",
            ErrorKind::TextBlobMissingNULTerminator => "TextBlobMissingNULTerminator",
            ErrorKind::TriedToReadFromNullArena => "TriedToReadFromNullArena",
            ErrorKind::UnexpectedFarPointer => "UnexpectedFarPointer",
            ErrorKind::UnknownPointerType => "UnknownPointerType",
        }
    }
}

impl fmt::Display for ErrorKind {
    #[inline]
    fn fmt(&self, f: &mut fmt::Formatter<'_>) -> fmt::Result {
        match self {
            ErrorKind::InvalidSegmentId(n) => write!(f, "InvalidSegmentId({n})"),
            ErrorKind::MessageTooLarge(n) => write!(f, "MessageTooLarge({n})"),
            _ => write!(f, "{}", self.name()),
        }
    }
}
