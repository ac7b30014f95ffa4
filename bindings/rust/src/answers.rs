//! What the calls return.
use crate::texts;
use capnp_layout::proved::capnp_messages::messages::{Command, Form, MessageExtent};
use capnp_layout::proved::capnp_pointers::pointers::{
    CanonicalFault, CanonicalFaultReason, MessageSize,
};
use core::fmt;

/// Why a message isn't canonical. `{}` writes it as text, such as `a list whose padding isn't zero`. The comment of
/// each constant has the reason, and after the colon the word that the fault names.
#[derive(Clone, Copy, PartialEq, Eq, Hash)]
pub struct Reason(u32);

#[rustfmt::skip]
impl Reason {
    /// A number of segments other than one: the first word of segment 1, or of segment 0 if there is none.
    pub const SEGMENT_COUNT: Reason = Reason(1);
    /// No word where a pointer should be: the place of the missing word.
    pub const NO_POINTER: Reason = Reason(2);
    /// A far pointer: the word itself.
    pub const FAR_POINTER: Reason = Reason(3);
    /// A capability: the word itself.
    pub const CAPABILITY: Reason = Reason(4);
    /// A pointer of an unknown kind: the word itself.
    pub const UNKNOWN_POINTER: Reason = Reason(5);
    /// A pointer to an empty struct with an offset other than -1: the pointer.
    pub const EMPTY_STRUCT_PLACE: Reason = Reason(6);
    /// A pointer to an object that isn't directly next in order: the pointer.
    pub const OBJECT_PLACE: Reason = Reason(7);
    /// A list whose padding isn't zero: the word with the padding.
    pub const PADDING: Reason = Reason(8);
    /// A data section whose last word is zero: the last word.
    pub const DATA_SECTION: Reason = Reason(9);
    /// A pointer section whose last pointer is null: the last pointer.
    pub const POINTER_SECTION: Reason = Reason(10);
    /// A list of structs whose pointer claims more words than its elements take: the tag.
    pub const ELEMENT_WORDS: Reason = Reason(11);
    /// A list of structs with more data words than any element needs: the tag.
    pub const ELEMENT_DATA: Reason = Reason(12);
    /// A list of structs with more pointers than any element needs: the tag.
    pub const ELEMENT_POINTERS: Reason = Reason(13);
    /// Words after the value: the first of them.
    pub const WORDS_BEHIND: Reason = Reason(14);
}

impl Reason {
    fn of(found: CanonicalFaultReason) -> Self {
        match found {
            CanonicalFaultReason::SegmentCount => Reason::SEGMENT_COUNT,
            CanonicalFaultReason::NoPointer => Reason::NO_POINTER,
            CanonicalFaultReason::FarPointer => Reason::FAR_POINTER,
            CanonicalFaultReason::Capability => Reason::CAPABILITY,
            CanonicalFaultReason::UnknownPointer => Reason::UNKNOWN_POINTER,
            CanonicalFaultReason::EmptyStructPlace => Reason::EMPTY_STRUCT_PLACE,
            CanonicalFaultReason::ObjectPlace => Reason::OBJECT_PLACE,
            CanonicalFaultReason::Padding => Reason::PADDING,
            CanonicalFaultReason::DataSection => Reason::DATA_SECTION,
            CanonicalFaultReason::PointerSection => Reason::POINTER_SECTION,
            CanonicalFaultReason::ElementWords => Reason::ELEMENT_WORDS,
            CanonicalFaultReason::ElementData => Reason::ELEMENT_DATA,
            CanonicalFaultReason::ElementPointers => Reason::ELEMENT_POINTERS,
            CanonicalFaultReason::WordsBehind => Reason::WORDS_BEHIND,
        }
    }

    /// The number of `enum capnp_canonical_reason`.
    pub fn number(self) -> u32 {
        self.0
    }

    /// The text, such as `a list whose padding isn't zero`; empty if the number has none.
    pub fn text(self) -> &'static str {
        texts::of_reason(self.0)
    }
}

impl fmt::Display for Reason {
    fn fmt(&self, f: &mut fmt::Formatter<'_>) -> fmt::Result {
        f.pad(self.text())
    }
}

impl fmt::Debug for Reason {
    fn fmt(&self, f: &mut fmt::Formatter<'_>) -> fmt::Result {
        write!(f, "Reason({} {self})", self.0)
    }
}

/// Why and where a message isn't canonical. `{}` writes `REASON at segment SEGMENT, word WORD`.
#[derive(Clone, Copy, Debug, PartialEq, Eq, Hash)]
#[non_exhaustive]
pub struct Fault {
    /// Why. Each reason says which word is named.
    pub reason: Reason,
    /// The number of the segment.
    pub segment: u64,
    /// The position in the segment, in words.
    pub word: u32,
}

impl Fault {
    pub(crate) fn of(found: CanonicalFault) -> Self {
        Fault {
            reason: Reason::of(found.reason),
            segment: found.segment,
            word: found.word,
        }
    }
}

impl fmt::Display for Fault {
    fn fmt(&self, f: &mut fmt::Formatter<'_>) -> fmt::Result {
        write!(
            f,
            "{} at segment {}, word {}",
            self.reason, self.segment, self.word
        )
    }
}

/// How [`locate`](crate::locate) reads a message.
#[derive(Clone, Copy, Debug, PartialEq, Eq, Hash)]
#[non_exhaustive]
pub enum Reading {
    /// As `validate` and `check` read it.
    Value = 0,
    /// As the calls that copy and `digest` read it, which refuse a capability.
    Canonical = 1,
    /// As `size` reads it.
    Size = 2,
}

impl Reading {
    /// A command that reads a message in this way.
    pub(crate) fn command(self) -> Command {
        match self {
            Reading::Value => Command::Validate,
            Reading::Canonical => Command::Canon(Form::Flat),
            Reading::Size => Command::Size,
        }
    }
}

/// How deep the value of a message is, how much it holds, and what reading it costs.
#[derive(Clone, Copy, Debug, PartialEq, Eq, Hash)]
#[non_exhaustive]
pub struct Extent {
    /// The number of structs and lists that are nested in each other, at most: the least nesting limit.
    pub depth: u32,
    /// Words of all objects, without landing pads. An object counts each time a pointer leads to it.
    pub words: u64,
    /// The number of capabilities.
    pub capabilities: u64,
    /// Words that reading the whole value once takes from the traversal limit, with one for the root pointer.
    pub cost: u64,
}

impl Extent {
    pub(crate) fn of(found: MessageExtent) -> Self {
        Extent {
            depth: found.value.depth,
            words: found.value.words,
            capabilities: found.value.capabilities,
            // there is always a limit, so the cost is known
            cost: found.cost.unwrap_or(0) as u64,
        }
    }
}

/// The size of what the root of a message leads to, without the root pointer and landing pads. Its canonical words take
/// at most 8 bytes more than these words.
#[derive(Clone, Copy, Debug, PartialEq, Eq, Hash)]
#[non_exhaustive]
pub struct Size {
    /// Words of 8 bytes.
    pub words: u64,
    /// The number of capabilities.
    pub capabilities: u32,
}

impl Size {
    pub(crate) fn of(found: MessageSize) -> Self {
        Size {
            words: found.word_count,
            capabilities: found.cap_count,
        }
    }
}
