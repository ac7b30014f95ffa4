//! Why a message can't be written as a canonical frame.

use crate::proved::capnp_framing::framing::FrameError;
use crate::proved::capnp_words::error::ErrorKind;

/// A refusal of `write_canonical`.
#[derive(Clone, Copy, Debug, PartialEq, Eq)]
pub enum CanonicalError {
    /// The value can't be copied.
    Layout(ErrorKind),
    /// The frame can't be written.
    Frame(FrameError),
}

impl CanonicalError {
    /// The name of the refusal that `self` carries.
    pub fn name(&self) -> &'static str {
        match self {
            CanonicalError::Layout(kind) => kind.name(),
            CanonicalError::Frame(error) => error.name(),
        }
    }
}
