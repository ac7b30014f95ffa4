//! The messages of a stream of frames.

use super::reading::try_read_message;
use crate::proved::capnp_arena::arena::ReaderSegments;
use crate::proved::capnp_framing::devices::Input;
use crate::proved::capnp_framing::framing::{FrameError, OwnedSegments};
use crate::proved::support::alloc::Global;
use crate::proved::typed_messages::message::{MessageReader, ReaderOptions};

/// The messages of a stream of frames, one after another. Each item is a message, or the error with
/// which the iterator ends: that of `try_read_message`, or `ReadFailed` if the input had failed
/// before. At the end of the input, and after an error, the iterator is done: each later call of
/// `next` returns `None`, and reads nothing. An iterator returns at most `u64::MAX` items.
///
/// For a packed stream, the input is a `capnp_packing::packing::UnpackingInput`.
pub struct Messages<R> {
    input: R,
    alloc: Global,
    options: ReaderOptions,
    // The most items that are still to come.
    left: u64,
}

impl<R: Input> Messages<R> {
    /// Makes an iterator over the messages of `input`. `options` has the limits for each of them: a
    /// message may have as many words as the traversal limit.
    #[inline]
    pub fn new(alloc: Global, input: R, options: ReaderOptions) -> Self {
        Messages {
            input,
            alloc,
            options,
            left: u64::MAX,
        }
    }

    /// Returns the input, with what comes after the messages that were read.
    #[inline]
    pub fn into_input(self) -> R {
        let Messages {
            input,
            alloc: _,
            options: _,
            left: _,
        } = self;
        input
    }
}

/// Reads the next message. Returns `None` at the end of the input, and `ReadFailed` if the input has
/// failed before.
#[inline]
fn next_message<R: Input>(
    alloc: Global,
    input: &mut R,
    options: ReaderOptions,
) -> Option<Result<MessageReader<OwnedSegments>, FrameError>> {
    if input.failed() {
        return Some(Err(FrameError::ReadFailed));
    }
    try_read_message(alloc, input, options).transpose()
}

impl<R: Input> Iterator for Messages<R> {
    type Item = Result<MessageReader<OwnedSegments>, FrameError>;

    #[inline]
    fn next(&mut self) -> Option<Result<MessageReader<OwnedSegments>, FrameError>> {
        if self.left == 0 {
            return None;
        }
        match next_message(self.alloc, &mut self.input, self.options) {
            Some(Ok(message)) => {
                self.left -= 1;
                Some(Ok(message))
            }
            Some(Err(error)) => {
                self.left = 0;
                Some(Err(error))
            }
            None => {
                self.left = 0;
                None
            }
        }
    }
}
