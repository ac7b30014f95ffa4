//! The texts of numbers: those that `capnp_canonical_name` and `capnp_canonical_reason_text` write, and the text of a
//! refusal.

/// The name and text of a refusal; empty if the number has none.
pub(crate) fn of_error(number: u32) -> (&'static str, &'static str) {
    match number {
        1 => ("NoRoom", "the buffer is too small"),
        2 => ("NoMessage", "there are no bytes where a frame was expected"),
        3 => (
            "SegmentIsNotWholeWords",
            "the size of a segment isn't a multiple of 8 bytes",
        ),
        17 => ("TooManySegments", "the frame has more than 512 segments"),
        18 => (
            "MessageTooLong",
            "the frame or the unpacked bytes have more words than the limit",
        ),
        19 => ("Truncated", "the bytes end inside a frame or a packed word"),
        32 => ("AllocationFailed", "memory ran out"),
        33 => (
            "CannotCreateACanonicalMessageWithACapability",
            "the value contains a capability, so it has no canonical form",
        ),
        34 => (
            "CantHandleNonStructInlineComposite",
            "the tag of a list of structs isn't a struct pointer",
        ),
        42 => (
            "InlineCompositeListsElementsOverrunItsWordCount",
            "the elements of a list of structs take more words than its pointer claims",
        ),
        43 => (
            "InlineCompositeListsOfNonStructTypeAreNotSupported",
            "the tag of a list of structs isn't a struct pointer",
        ),
        44 => (
            "InvalidSegmentId",
            "a far pointer names a segment that doesn't exist, or there are no segments",
        ),
        45 => (
            "MalformedDoubleFarPointer",
            "a one-word landing pad, or the tag of a two-word landing pad, is itself a far pointer",
        ),
        55 => (
            "MessageContainsOutOfBoundsPointer",
            "a pointer points outside its segment",
        ),
        57 => ("MessageIsTooDeeplyNested", "the nesting limit is exceeded"),
        58 => (
            "MessageIsTooDeeplyNestedOrContainsCycles",
            "the nesting limit is exceeded, perhaps by a cycle of pointers",
        ),
        59 => (
            "MessageTooLarge",
            "the message or its canonical form is larger than the format allows",
        ),
        60 => ("NestingLimitExceeded", "the nesting limit is exceeded"),
        61 => ("NoSuchPlace", "the path leads nowhere"),
        62 => ("ReadLimitExceeded", "the traversal limit is exceeded"),
        66 => ("UnknownPointerType", "a pointer is of an unknown kind"),
        _ => ("", "a refusal that this crate doesn't know"),
    }
}

/// The text of a reason; empty if the number has none.
pub(crate) fn of_reason(number: u32) -> &'static str {
    match number {
        1 => "a number of segments other than one",
        2 => "no word where a pointer should be",
        3 => "a far pointer",
        4 => "a capability",
        5 => "a pointer of an unknown kind",
        6 => "a pointer to an empty struct with an offset other than -1",
        7 => "a pointer to an object that isn't directly next in order",
        8 => "a list whose padding isn't zero",
        9 => "a data section whose last word is zero",
        10 => "a pointer section whose last pointer is null",
        11 => "a list of structs whose pointer claims more words than its elements take",
        12 => "a list of structs with more data words than any element needs",
        13 => "a list of structs with more pointers than any element needs",
        14 => "words after the value",
        _ => "",
    }
}
