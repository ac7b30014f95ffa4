//! Reads and writes messages as packed frames (encoding specification, "Packing").

use crate::proved::capnp_arena::arena::{BuilderArena, ReaderArena, ReaderSegments};
use crate::proved::capnp_framing::devices::{DeviceFault, Input, Output};
use crate::proved::capnp_framing::framing::{FrameError, OwnedSegments};
use crate::proved::capnp_packing::packing::{PackingOutput, UnpackingInput};
use crate::proved::support::alloc::Global;
use crate::proved::typed_messages::message::{
    HeapArena, MessageBuilder, MessageReader, ReaderOptions,
};
use crate::proved::typed_messages::serialize;

/// Reads the first message of a packed stream. Takes the input, because it also reads some of the
/// packed bytes after the message; for a stream of many messages, use
/// `serialize::Messages` over an `UnpackingInput`.
///
/// Refuses what `serialize::read_message` refuses for the unpacked bytes, with the same errors in the
/// same order. Packed bytes that end within a word count as all bytes that they unpack to.
#[inline]
pub fn read_message<R: Input>(
    alloc: Global,
    packed: R,
    options: ReaderOptions,
) -> Result<MessageReader<OwnedSegments>, FrameError> {
    let mut input = UnpackingInput::new(packed);
    serialize::read_message(alloc, &mut input, options)
}

/// Writes a message as a packed frame, and returns the output, which has all of the packed bytes.
///
/// Refusals: `AllocationFailed` if memory runs out; `NoSegments` if there are no segments;
/// `TooManySegments(n)` if there are n segments, and n is above 512; `WriteFailed` if the output
/// failed.
#[inline]
pub fn write_message<W: Output>(output: W, message: &MessageBuilder) -> Result<W, FrameError> {
    let mut packing = PackingOutput::new(output);
    if let Err(error) = serialize::write_message(&mut packing, message) {
        return Err(error);
    }
    match packing.write_pending() {
        Ok(()) => Ok(packing.into_packed()),
        Err(DeviceFault) => Err(FrameError::WriteFailed),
    }
}
