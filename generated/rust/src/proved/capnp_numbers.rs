//! The refusals of calls as numbers, for C. `bindings/c/capnp_canonical.h` and
//! `bindings/c/capnp_layout.h` give each number a name.

use crate::proved::capnp_framing::framing::FrameError;
use crate::proved::capnp_words::error::ErrorKind;

/// There isn't enough room in a buffer, or in an array.
pub const NO_ROOM: u32 = 1;

/// There are no bytes where a frame was expected.
pub const NO_MESSAGE: u32 = 2;

/// The number of a refusal to read or write a frame.
pub fn frame_number(error: FrameError) -> u32 {
    match error {
        FrameError::NoSegments => 16,
        FrameError::TooManySegments(_) => 17,
        FrameError::MessageTooLong(_) => 18,
        FrameError::Truncated => 19,
        FrameError::ReadFailed => 20,
        FrameError::WriteFailed => 21,
        FrameError::AllocationFailed => 22,
    }
}

/// The number of a refusal to read or copy a message.
pub fn layout_number(kind: ErrorKind) -> u32 {
    match kind {
        ErrorKind::AllocationFailed => 32,
        ErrorKind::CannotCreateACanonicalMessageWithACapability => 33,
        ErrorKind::CantHandleNonStructInlineComposite => 34,
        ErrorKind::ExistingListPointerIsNotByteSized => 35,
        ErrorKind::ExistingListValueIsIncompatibleWithExpectedType => 36,
        ErrorKind::ExistingPointerIsNotAList => 37,
        ErrorKind::ExpectedAPointerListButGotAListOfDataOnlyStructs => 38,
        ErrorKind::ExpectedAPrimitiveListButGotAListOfPointerOnlyStructs => 39,
        ErrorKind::FoundBitListWhereStructListWasExpected => 40,
        ErrorKind::FoundStructListWhereBitListWasExpected => 41,
        ErrorKind::InlineCompositeListsElementsOverrunItsWordCount => 42,
        ErrorKind::InlineCompositeListsOfNonStructTypeAreNotSupported => 43,
        ErrorKind::InvalidSegmentId(_) => 44,
        ErrorKind::MalformedDoubleFarPointer => 45,
        ErrorKind::MessageContainsListPointerOfNonBytesWhereDataWasExpected => 46,
        ErrorKind::MessageContainsListPointerOfNonBytesWhereTextWasExpected => 47,
        ErrorKind::MessageContainsListWithIncompatibleElementType => 48,
        ErrorKind::MessageContainsNonCapabilityPointerWhereCapabilityPointerWasExpected => 49,
        ErrorKind::MessageContainsNonListPointerWhereDataWasExpected => 50,
        ErrorKind::MessageContainsNonListPointerWhereListPointerWasExpected => 51,
        ErrorKind::MessageContainsNonListPointerWhereTextWasExpected => 52,
        ErrorKind::MessageContainsNonStructPointerWhereStructPointerWasExpected => 53,
        ErrorKind::MessageContainsNullCapabilityPointer => 54,
        ErrorKind::MessageContainsOutOfBoundsPointer => 55,
        ErrorKind::MessageContainsTextThatIsNotNULTerminated => 56,
        ErrorKind::MessageIsTooDeeplyNested => 57,
        ErrorKind::MessageIsTooDeeplyNestedOrContainsCycles => 58,
        ErrorKind::MessageTooLarge(_) => 59,
        ErrorKind::NestingLimitExceeded => 60,
        ErrorKind::NoSuchPlace => 61,
        ErrorKind::ReadLimitExceeded => 62,
        ErrorKind::TextBlobMissingNULTerminator => 63,
        ErrorKind::TriedToReadFromNullArena => 64,
        ErrorKind::UnexpectedFarPointer => 65,
        ErrorKind::UnknownPointerType => 66,
    }
}
