//! Why calls are refused.
use crate::texts;
use capnp_layout::proved::capnp_framing::framing::FrameError;
use capnp_layout::proved::capnp_refusals::refusals::RefusedPointer;
use capnp_layout::proved::capnp_words::error;
use core::fmt;
use core::hash::{Hash, Hasher};

/// The place of a pointer in a message. `{}` writes `segment SEGMENT, word WORD`.
#[derive(Clone, Copy, Debug, PartialEq, Eq, Hash)]
#[non_exhaustive]
pub struct Pointer {
    /// The number of its segment.
    pub segment: u64,
    /// Its position in the segment, in words.
    pub word: u32,
}

impl fmt::Display for Pointer {
    fn fmt(&self, f: &mut fmt::Formatter<'_>) -> fmt::Result {
        write!(f, "segment {}, word {}", self.segment, self.word)
    }
}

/// Why a call is refused, and at which pointer, if it is one. `{}` writes its name, the place and a text, such as
/// `UnknownPointerType at segment 0, word 17: a pointer is of an unknown kind`. 57, 58 and 60 all mean that the message is
/// nested too deeply: treat them alike. [`kind`](Error::kind) does.
///
/// Two errors are equal if their numbers are; the pointers don't count. So `error == Error::TRUNCATED` works, but a
/// constant can't be a pattern: write `match error.kind()`, or `match error { it if it == Error::TRUNCATED => .. }`.
#[derive(Clone, Copy)]
pub struct Error {
    number: u32,
    pointer: Option<Pointer>,
}

#[rustfmt::skip]
impl Error {
    /// There are no bytes where a frame was expected.
    pub const NO_MESSAGE: Error = Error::new(2);
    /// The size of a segment isn't a multiple of 8 bytes.
    pub const SEGMENT_IS_NOT_WHOLE_WORDS: Error = Error::new(3);
    /// The frame has more than 512 segments.
    pub const TOO_MANY_SEGMENTS: Error = Error::new(17);
    /// The frame or the unpacked bytes have more words than the limit.
    pub const MESSAGE_TOO_LONG: Error = Error::new(18);
    /// The bytes end inside a frame or a packed word. The count after a packed word is a part of it.
    pub const TRUNCATED: Error = Error::new(19);
    /// Memory ran out.
    pub const ALLOCATION_FAILED: Error = Error::new(32);
    /// The value contains a capability, so it has no canonical form.
    pub const CANNOT_CREATE_A_CANONICAL_MESSAGE_WITH_A_CAPABILITY: Error = Error::new(33);
    /// The tag of a list of structs isn't a struct pointer. From the calls that measure.
    pub const CANT_HANDLE_NON_STRUCT_INLINE_COMPOSITE: Error = Error::new(34);
    /// The elements of a list of structs take more words than its pointer claims.
    pub const INLINE_COMPOSITE_LISTS_ELEMENTS_OVERRUN_ITS_WORD_COUNT: Error = Error::new(42);
    /// The tag of a list of structs isn't a struct pointer. From the calls that copy and those that test.
    pub const INLINE_COMPOSITE_LISTS_OF_NON_STRUCT_TYPE_ARE_NOT_SUPPORTED: Error = Error::new(43);
    /// A far pointer names a segment that doesn't exist, or there are no segments.
    pub const INVALID_SEGMENT_ID: Error = Error::new(44);
    /// A one-word landing pad, or the tag of a two-word landing pad, is itself a far pointer.
    pub const MALFORMED_DOUBLE_FAR_POINTER: Error = Error::new(45);
    /// A pointer points outside its segment.
    pub const MESSAGE_CONTAINS_OUT_OF_BOUNDS_POINTER: Error = Error::new(55);
    /// The nesting limit is exceeded. From the calls that measure.
    pub const MESSAGE_IS_TOO_DEEPLY_NESTED: Error = Error::new(57);
    /// The nesting limit is exceeded, perhaps by a cycle of pointers. From the calls that copy, and from those that
    /// test, at a struct.
    pub const MESSAGE_IS_TOO_DEEPLY_NESTED_OR_CONTAINS_CYCLES: Error = Error::new(58);
    /// The message or its canonical form is larger than the format allows. The canonical message would have more than
    /// 536,870,911 words, there are 2^32 or more segments, or a segment has 2^32 or more words.
    pub const MESSAGE_TOO_LARGE: Error = Error::new(59);
    /// The nesting limit is exceeded. From the calls that test, at a list.
    pub const NESTING_LIMIT_EXCEEDED: Error = Error::new(60);
    /// The path leads nowhere. From the calls for a part.
    pub const NO_SUCH_PLACE: Error = Error::new(61);
    /// The traversal limit is exceeded.
    pub const READ_LIMIT_EXCEEDED: Error = Error::new(62);
    /// A pointer is of an unknown kind.
    pub const UNKNOWN_POINTER_TYPE: Error = Error::new(66);
}

impl Error {
    const fn new(number: u32) -> Error {
        Error {
            number,
            pointer: None,
        }
    }

    /// The error of a frame that can't be read.
    pub(crate) fn of_frame(error: FrameError) -> Error {
        Error::new(capnp_layout::Reason::Frame(error).number())
    }

    /// The error of a message that can't be read.
    pub(crate) fn of_layout(kind: error::ErrorKind) -> Error {
        Error::new(capnp_layout::Reason::Layout(kind).number())
    }

    /// The same error, with the place of the pointer that is refused.
    pub(crate) fn with_pointer(self, pointer: Option<Pointer>) -> Error {
        Error { pointer, ..self }
    }

    /// The number of `enum capnp_canonical_answer`, which all languages share.
    pub fn number(self) -> u32 {
        self.number
    }

    /// The name, such as `Truncated`; empty if the number has none.
    pub fn name(self) -> &'static str {
        texts::of_error(self.number).0
    }

    /// The text, such as `the bytes end inside a frame or a packed word`.
    pub fn text(self) -> &'static str {
        texts::of_error(self.number).1
    }

    /// The pointer at which the message is broken. `None` if the bytes aren't a frame or whole words, or if there is no
    /// memory, or the message is too large. `None` too from the calls for a part of a message, from those that read a
    /// stream, and for the constants.
    pub fn pointer(self) -> Option<Pointer> {
        self.pointer
    }

    /// What sort of refusal this is.
    pub fn kind(self) -> ErrorKind {
        match self.number {
            2 | 19 => ErrorKind::Incomplete,
            3 | 34 | 42..=45 | 55 | 66 => ErrorKind::Malformed,
            18 | 57 | 58 | 60 | 62 => ErrorKind::OverLimit,
            17 | 59 => ErrorKind::TooLarge,
            32 => ErrorKind::OutOfMemory,
            33 => ErrorKind::Capability,
            61 => ErrorKind::NoSuchPlace,
            _ => ErrorKind::Other,
        }
    }
}

/// What sort of refusal an [`Error`] is, for programs that treat several alike.
#[derive(Clone, Copy, Debug, PartialEq, Eq, Hash)]
#[non_exhaustive]
pub enum ErrorKind {
    /// The bytes end before the frame or the packed word does, or there are none.
    Incomplete,
    /// The bytes aren't a message: whole words are missing, or a pointer is broken.
    Malformed,
    /// The message is over one of the [`Limits`](crate::Limits). It may be accepted with others.
    OverLimit,
    /// The message or its canonical form is larger than any that is accepted.
    TooLarge,
    /// Memory ran out.
    OutOfMemory,
    /// The value has a capability, and so no canonical form.
    Capability,
    /// The path leads nowhere.
    NoSuchPlace,
    /// The number has no name.
    Other,
}

impl PartialEq for Error {
    fn eq(&self, other: &Error) -> bool {
        self.number == other.number
    }
}

impl Eq for Error {}

impl Hash for Error {
    fn hash<H: Hasher>(&self, state: &mut H) {
        self.number.hash(state);
    }
}

/// From a number of `enum capnp_canonical_answer`, which isn't 0, such as another program has stored. The error has no
/// place.
impl From<u32> for Error {
    fn from(number: u32) -> Self {
        Error::new(number)
    }
}

impl fmt::Display for Error {
    fn fmt(&self, f: &mut fmt::Formatter<'_>) -> fmt::Result {
        f.write_str(self.name())?;
        if let Some(pointer) = self.pointer {
            write!(f, " at {pointer}")?;
        }
        write!(f, ": {}", self.text())
    }
}

impl fmt::Debug for Error {
    fn fmt(&self, f: &mut fmt::Formatter<'_>) -> fmt::Result {
        write!(f, "Error({} {}", self.number, self.name())?;
        if let Some(pointer) = self.pointer {
            write!(f, " at {pointer}")?;
        }
        f.write_str(")")
    }
}

impl core::error::Error for Error {}

/// `ALLOCATION_FAILED` becomes `OutOfMemory`, `TRUNCATED` `UnexpectedEof`, anything else `InvalidData`.
#[cfg(feature = "std")]
impl From<Error> for std::io::Error {
    fn from(error: Error) -> Self {
        let kind = match error {
            Error { number: 19, .. } => std::io::ErrorKind::UnexpectedEof,
            _ if error.kind() == ErrorKind::OutOfMemory => std::io::ErrorKind::OutOfMemory,
            _ => std::io::ErrorKind::InvalidData,
        };
        std::io::Error::new(kind, error)
    }
}

/// The pointer at which a message is broken. `{}` writes it as
/// `MessageContainsOutOfBoundsPointer at segment 0, word 17: a pointer points outside its segment`.
#[derive(Clone, Copy, Debug, PartialEq, Eq, Hash)]
#[non_exhaustive]
pub struct Broken {
    /// Why the pointer is refused, with its place.
    pub error: Error,
    /// The number of its segment.
    pub segment: u64,
    /// Its position in the segment, in words.
    pub word: u32,
}

impl Broken {
    pub(crate) fn of(found: RefusedPointer) -> Self {
        let (segment, word) = (found.segment, found.word);
        let pointer = Some(Pointer { segment, word });
        Broken {
            error: Error::of_layout(found.refusal).with_pointer(pointer),
            segment,
            word,
        }
    }
}

impl fmt::Display for Broken {
    fn fmt(&self, f: &mut fmt::Formatter<'_>) -> fmt::Result {
        self.error.fmt(f)
    }
}
