//! Why a frame isn't written or read.

use core::fmt;

/// Why a frame wasn't read or written. `{}` writes the variant's name, followed by its number in
/// parentheses, if it has one.
#[derive(Clone, Copy, Debug, PartialEq, Eq)]
pub enum FrameError {
    /// The message has no segments. Such a message has no frame.
    NoSegments,
    /// The message has more than 512 segments. Carries their number.
    TooManySegments(u64),
    /// The message has more words than `max_words`. Carries their number; for a message without a
    /// frame, the number of the first word beyond the limit, counted from 1.
    MessageTooLong(u64),
    /// The input ended inside a frame, or inside a word of a message without a frame.
    Truncated,
    /// The input failed.
    ReadFailed,
    /// The output failed.
    WriteFailed,
    /// There is no memory for the message.
    AllocationFailed,
}

impl core::error::Error for FrameError {}

impl FrameError {
    /// The variant's name, without the number.
    pub fn name(&self) -> &'static str {
        match self {
            FrameError::NoSegments => "NoSegments",
            FrameError::TooManySegments(_) => "TooManySegments",
            FrameError::MessageTooLong(_) => "MessageTooLong",
            FrameError::Truncated => "Truncated",
            FrameError::ReadFailed => "ReadFailed",
            FrameError::WriteFailed => "WriteFailed",
            FrameError::AllocationFailed => "AllocationFailed",
        }
    }
}

impl fmt::Display for FrameError {
    fn fmt(&self, f: &mut fmt::Formatter<'_>) -> fmt::Result {
        match self {
            FrameError::TooManySegments(n) => write!(f, "TooManySegments({n})"),
            FrameError::MessageTooLong(n) => write!(f, "MessageTooLong({n})"),
            _ => write!(f, "{}", self.name()),
        }
    }
}
