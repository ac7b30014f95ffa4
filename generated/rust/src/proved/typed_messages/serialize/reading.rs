//! Reads messages from frames (encoding specification, "Serialization Over a Stream").

use crate::proved::capnp_arena::arena::ReaderSegments;
use crate::proved::capnp_framing::devices::Input;
use crate::proved::capnp_framing::framing::{
    most_words, read, read_from_flat_slice, FrameError, FrameSegments, OwnedSegments,
};
use crate::proved::support::alloc::Global;
use crate::proved::typed_messages::message::{MessageReader, ReaderOptions};

/// Reads a message from the front of `input`, and leaves what follows it unread. Returns `None` if
/// the input is at its end. Precondition: `input` hasn't failed.
///
/// Refusals, in this order: `Truncated` if there are fewer than four bytes; `TooManySegments(n)` if
/// there are n segments, and n is above 512; `Truncated` if the segment table is cut short;
/// `MessageTooLong(n)` if the segments have n words, and n is above the traversal limit; `Truncated`
/// if the words are cut short. Also `ReadFailed` exactly if the input failed; and `AllocationFailed`
/// if memory ran out. What is read of the input then is as for `capnp_framing::framing::read_into`.
///
/// # Preconditions
///
/// ```text
/// requires { R.has_failed input.old ≡ false }
/// ```
#[inline]
pub fn try_read_message<R: Input>(
    alloc: Global,
    input: &mut R,
    options: ReaderOptions,
) -> Result<Option<MessageReader<OwnedSegments>>, FrameError> {
    match read(alloc, input, most_words(options)) {
        Ok(Some(segments)) => Ok(Some(MessageReader::new(segments, options))),
        Ok(None) => Ok(None),
        Err(error) => Err(error),
    }
}

/// Like `try_read_message`, for an input that has a message: refuses with `Truncated` also if the
/// input is at its end. Precondition: `input` hasn't failed.
///
/// # Preconditions
///
/// ```text
/// requires { R.has_failed input.old ≡ false }
/// ```
#[inline]
pub fn read_message<R: Input>(
    alloc: Global,
    input: &mut R,
    options: ReaderOptions,
) -> Result<MessageReader<OwnedSegments>, FrameError> {
    match try_read_message(alloc, input, options) {
        Ok(Some(message)) => Ok(message),
        Ok(None) => Err(FrameError::Truncated),
        Err(error) => Err(error),
    }
}

/// Reads a message in place from the front of `bytes`: copies nothing, and takes no memory. Ignores
/// the bytes after the message; they start at `size_in_bytes` of the message's segments
/// (`into_segments`).
///
/// Refuses what `read_message` refuses, with the same errors in the same order, except that
/// `ReadFailed` and `AllocationFailed` can't occur.
#[inline]
pub fn read_message_from_flat_slice(
    bytes: &[u8],
    options: ReaderOptions,
) -> Result<MessageReader<FrameSegments<'_>>, FrameError> {
    match read_from_flat_slice(bytes, most_words(options)) {
        Ok(Some(segments)) => Ok(MessageReader::new(segments, options)),
        Ok(None) => Err(FrameError::Truncated),
        Err(error) => Err(error),
    }
}
