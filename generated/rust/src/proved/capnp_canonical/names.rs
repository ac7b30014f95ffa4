//! The names of refusals and the texts of reasons, by their numbers in C.

use crate::proved::capnp_canonical::refusal::Refusal;
use crate::proved::capnp_framing::framing::FrameError;
use crate::proved::capnp_pointers::pointers::CanonicalFaultReason;
use crate::proved::capnp_words::error::ErrorKind;

/// The refusals of reading and writing a frame, in the order of their numbers, from 16 on.
const FRAME_ERRORS: [FrameError; 7] = [
    FrameError::NoSegments,
    FrameError::TooManySegments(0),
    FrameError::MessageTooLong(0),
    FrameError::Truncated,
    FrameError::ReadFailed,
    FrameError::WriteFailed,
    FrameError::AllocationFailed,
];

/// The refusals of reading and copying a message, in the order of their numbers, from 32 on.
const KINDS: [ErrorKind; 35] = [
    ErrorKind::AllocationFailed,
    ErrorKind::CannotCreateACanonicalMessageWithACapability,
    ErrorKind::CantHandleNonStructInlineComposite,
    ErrorKind::ExistingListPointerIsNotByteSized,
    ErrorKind::ExistingListValueIsIncompatibleWithExpectedType,
    ErrorKind::ExistingPointerIsNotAList,
    ErrorKind::ExpectedAPointerListButGotAListOfDataOnlyStructs,
    ErrorKind::ExpectedAPrimitiveListButGotAListOfPointerOnlyStructs,
    ErrorKind::FoundBitListWhereStructListWasExpected,
    ErrorKind::FoundStructListWhereBitListWasExpected,
    ErrorKind::InlineCompositeListsElementsOverrunItsWordCount,
    ErrorKind::InlineCompositeListsOfNonStructTypeAreNotSupported,
    ErrorKind::InvalidSegmentId(0),
    ErrorKind::MalformedDoubleFarPointer,
    ErrorKind::MessageContainsListPointerOfNonBytesWhereDataWasExpected,
    ErrorKind::MessageContainsListPointerOfNonBytesWhereTextWasExpected,
    ErrorKind::MessageContainsListWithIncompatibleElementType,
    ErrorKind::MessageContainsNonCapabilityPointerWhereCapabilityPointerWasExpected,
    ErrorKind::MessageContainsNonListPointerWhereDataWasExpected,
    ErrorKind::MessageContainsNonListPointerWhereListPointerWasExpected,
    ErrorKind::MessageContainsNonListPointerWhereTextWasExpected,
    ErrorKind::MessageContainsNonStructPointerWhereStructPointerWasExpected,
    ErrorKind::MessageContainsNullCapabilityPointer,
    ErrorKind::MessageContainsOutOfBoundsPointer,
    ErrorKind::MessageContainsTextThatIsNotNULTerminated,
    ErrorKind::MessageIsTooDeeplyNested,
    ErrorKind::MessageIsTooDeeplyNestedOrContainsCycles,
    ErrorKind::MessageTooLarge(0),
    ErrorKind::NestingLimitExceeded,
    ErrorKind::NoSuchPlace,
    ErrorKind::ReadLimitExceeded,
    ErrorKind::TextBlobMissingNULTerminator,
    ErrorKind::TriedToReadFromNullArena,
    ErrorKind::UnexpectedFarPointer,
    ErrorKind::UnknownPointerType,
];

/// The reasons of faults, in the order of their numbers, from 1 on.
const REASONS: [CanonicalFaultReason; 14] = [
    CanonicalFaultReason::SegmentCount,
    CanonicalFaultReason::NoPointer,
    CanonicalFaultReason::FarPointer,
    CanonicalFaultReason::Capability,
    CanonicalFaultReason::UnknownPointer,
    CanonicalFaultReason::EmptyStructPlace,
    CanonicalFaultReason::ObjectPlace,
    CanonicalFaultReason::Padding,
    CanonicalFaultReason::DataSection,
    CanonicalFaultReason::PointerSection,
    CanonicalFaultReason::ElementWords,
    CanonicalFaultReason::ElementData,
    CanonicalFaultReason::ElementPointers,
    CanonicalFaultReason::WordsBehind,
];

/// Returns the refusal with the number `number`, with 0 as the value that it carries, if any;
/// `None` if no refusal has this number.
fn refusal_of(number: u32) -> Option<Refusal> {
    match number {
        1 => Some(Refusal::NoRoom(0)),
        2 => Some(Refusal::NoMessage),
        3 => Some(Refusal::SegmentIsNotWholeWords),
        16..=22 => Some(Refusal::Frame(FRAME_ERRORS[number as usize - 16])),
        32..=66 => Some(Refusal::Layout(KINDS[number as usize - 32])),
        _ => None,
    }
}

/// Returns the name of the refusal with the number `number`; an empty text if no refusal has this
/// number.
pub fn name_of_number(number: u32) -> &'static str {
    match refusal_of(number) {
        Some(refusal) => refusal.name(),
        None => "",
    }
}

/// Returns the text of the reason with the number `number`; an empty text if no reason has this
/// number.
pub fn text_of_reason(number: u32) -> &'static str {
    match number {
        1..=14 => REASONS[number as usize - 1].text(),
        _ => "",
    }
}

/// Writes `text` and a terminating zero byte to the front of `to`; cuts `text` if `to` is too
/// small. Returns the length of the whole `text` in bytes. The rest of `to` is unchanged.
pub fn put_text(text: &str, to: &mut [u8]) -> usize {
    let bytes = text.as_bytes();
    if !to.is_empty() {
        let n = bytes.len().min(to.len() - 1);
        to[..n].copy_from_slice(&bytes[..n]);
        to[n] = 0;
    }
    bytes.len()
}
