//! Writes messages as frames (encoding specification, "Serialization Over a Stream").

use crate::proved::capnp_arena::arena::{BuilderArena, ReaderArena};
use crate::proved::capnp_framing::devices::Output;
use crate::proved::capnp_framing::framing::{write, FrameError};
use crate::proved::typed_messages::message::{HeapArena, MessageBuilder};

/// Writes a message as a frame: the allocated words of each segment, after a table of the segments'
/// sizes. Takes memory only if there isn't exactly one segment. Precondition: `output` hasn't
/// failed.
///
/// Refusals: `AllocationFailed` if memory runs out; `NoSegments` if there are no segments;
/// `TooManySegments(n)` if there are n segments, and n is above 512. After these refusals, nothing is
/// written. `WriteFailed` if the output failed; after it, how much is written is unspecified.
///
/// # Preconditions
///
/// ```text
/// requires { W.has_failed output.old ≡ false }
/// ```
#[inline]
pub fn write_message<W: Output>(
    output: &mut W,
    message: &MessageBuilder,
) -> Result<(), FrameError> {
    match message.arena.get_segments_for_output() {
        Ok(segments) => write(output, &segments),
        Err(_) => Err(FrameError::AllocationFailed),
    }
}
