//! Why the program refuses its input.

use crate::proved::capnp_framing::framing::FrameError;
use crate::proved::capnp_words::error::ErrorKind;

/// Why a command refuses its input.
#[derive(Clone, Copy, Debug, PartialEq, Eq)]
pub enum Refusal {
    /// The segments can't be read, or the value of the message can't.
    Layout(ErrorKind),
    /// The frame can't be read, or the segments can't be framed.
    Frame(FrameError),
    /// There is no frame to read: the input has no line, or an empty one.
    NoMessage,
}

impl Refusal {
    /// The name of the refusal.
    pub fn name(&self) -> &'static str {
        match self {
            Refusal::Layout(kind) => kind.name(),
            Refusal::Frame(error) => error.name(),
            Refusal::NoMessage => "NoMessage",
        }
    }
}
