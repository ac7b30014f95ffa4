//! Why a stream isn't answered to its end.

use crate::proved::capnp_framing::framing::FrameError;
use crate::proved::capnp_refusals::refusals::RefusedPointer;
use crate::proved::capnp_words::error::ErrorKind;

/// Why a message of a stream isn't answered.
#[derive(Clone, Copy, Debug, PartialEq, Eq)]
pub enum StreamError {
    /// The message's frame can't be read, or the answer can't be written.
    Frame(FrameError),
    /// The message can't be copied, tested or measured: why, and at which of its pointers, if it is
    /// at one.
    Layout(ErrorKind, Option<RefusedPointer>),
    /// There are more messages than a `u64` can count.
    TooManyMessages,
}

impl StreamError {
    /// The name of the fault, which is printed after `refused`.
    pub fn name(&self) -> &'static str {
        match self {
            StreamError::Frame(error) => error.name(),
            StreamError::Layout(kind, _) => kind.name(),
            StreamError::TooManyMessages => "TooManyMessages",
        }
    }

    /// The pointer at which the message is refused; `None` if the fault isn't that of a pointer.
    pub fn pointer(&self) -> Option<RefusedPointer> {
        match self {
            StreamError::Layout(_, pointer) => *pointer,
            StreamError::Frame(_) | StreamError::TooManyMessages => None,
        }
    }
}
