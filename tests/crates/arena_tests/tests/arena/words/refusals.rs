//! Tests the names and texts of refusals.

use capnp_proved::capnp_words::error::ErrorKind;

const KINDS: [ErrorKind; 35] = [
    ErrorKind::AllocationFailed,
    ErrorKind::CannotCreateACanonicalMessageWithACapability,
    ErrorKind::CantHandleNonStructInlineComposite,
    ErrorKind::ExistingListPointerIsNotByteSized,
    ErrorKind::ExistingListValueIsIncompatibleWithExpectedType,
    ErrorKind::ExistingPointerIsNotAList,
    ErrorKind::ExpectedAPointerListButGotAListOfDataOnlyStructs,
    ErrorKind::ExpectedAPrimitiveListButGotAListOfPointerOnlyStructs,
    ErrorKind::FoundBitListWhereStructListWasExpected,
    ErrorKind::FoundStructListWhereBitListWasExpected,
    ErrorKind::InlineCompositeListsElementsOverrunItsWordCount,
    ErrorKind::InlineCompositeListsOfNonStructTypeAreNotSupported,
    ErrorKind::InvalidSegmentId(5),
    ErrorKind::MalformedDoubleFarPointer,
    ErrorKind::MessageContainsListPointerOfNonBytesWhereDataWasExpected,
    ErrorKind::MessageContainsListPointerOfNonBytesWhereTextWasExpected,
    ErrorKind::MessageContainsListWithIncompatibleElementType,
    ErrorKind::MessageContainsNonCapabilityPointerWhereCapabilityPointerWasExpected,
    ErrorKind::MessageContainsNonListPointerWhereDataWasExpected,
    ErrorKind::MessageContainsNonListPointerWhereListPointerWasExpected,
    ErrorKind::MessageContainsNonListPointerWhereTextWasExpected,
    ErrorKind::MessageContainsNonStructPointerWhereStructPointerWasExpected,
    ErrorKind::MessageContainsNullCapabilityPointer,
    ErrorKind::MessageContainsOutOfBoundsPointer,
    ErrorKind::MessageContainsTextThatIsNotNULTerminated,
    ErrorKind::MessageIsTooDeeplyNested,
    ErrorKind::MessageIsTooDeeplyNestedOrContainsCycles,
    ErrorKind::MessageTooLarge(536_870_912),
    ErrorKind::NestingLimitExceeded,
    ErrorKind::NoSuchPlace,
    ErrorKind::ReadLimitExceeded,
    ErrorKind::TextBlobMissingNULTerminator,
    ErrorKind::TriedToReadFromNullArena,
    ErrorKind::UnexpectedFarPointer,
    ErrorKind::UnknownPointerType,
];

/// The text of a refusal is the variant as Rust writes it.
#[test]
fn texts_are_variants() {
    for kind in KINDS {
        assert_eq!(kind.to_string(), format!("{kind:?}"));
    }
}
