//! How much a sound message holds, in the form for C.

use crate::proved::capnp_arena::arena::{ReaderArenaImpl, ReaderSegments};
use crate::proved::capnp_canonical::calls::Limits;
use crate::proved::capnp_canonical::frames::message_in;
use crate::proved::capnp_canonical::refusal::Refusal;
use crate::proved::capnp_canonical::segments::lent_message;
use crate::proved::capnp_canonical::words::message_of;
use crate::proved::capnp_messages::messages;
use crate::proved::capnp_messages::messages::MessageExtent;

/// How deep the value of a message is, how much it holds, and what reading it costs.
#[repr(C)]
#[derive(Clone, Copy)]
pub struct SoundMessage {
    /// The number of words of all objects, without landing pads; `u64::MAX` if there are more.
    pub words: u64,
    /// The number of capabilities; `u64::MAX` if there are more.
    pub capabilities: u64,
    /// The number of words that reading the whole value once takes from the traversal limit.
    pub cost: u64,
    /// The number of structs and lists that are nested in each other, at most.
    pub depth: u32,
}

/// The extent that is stored for a message that isn't sound.
pub const NOT_SOUND: SoundMessage = SoundMessage {
    words: 0,
    capabilities: 0,
    cost: 0,
    depth: 0,
};

impl SoundMessage {
    /// Returns the extent that was found.
    fn of(found: MessageExtent) -> Self {
        SoundMessage {
            words: found.value.words,
            capabilities: found.value.capabilities,
            cost: match found.cost {
                Some(cost) => cost as u64,
                None => 0,
            },
            depth: found.value.depth,
        }
    }
}

/// Returns the extent of the message in `segments`, if it means a value within `limits`.
///
/// # Preconditions
///
/// ```text
/// requires { IsSmall (S.segments segments) }
/// ```
fn validate<S: ReaderSegments>(segments: S, limits: Limits) -> Result<SoundMessage, Refusal> {
    let options = limits.options();
    let source = ReaderArenaImpl::new(segments, options);
    match messages::validate(&source, options.traversal_limit_in_words) {
        Ok(found) => Ok(SoundMessage::of(found)),
        Err(kind) => Err(Refusal::Layout(kind)),
    }
}

/// Returns the extent of the message whose frame is at the front of `frame`, if it means a value
/// within `limits`.
pub fn validate_frame(frame: &[u8], limits: Limits) -> Result<SoundMessage, Refusal> {
    let segments = message_in(frame, limits.words)?;
    validate(segments, limits)
}

/// The same for the message of these segments.
pub fn validate_segments(segments: &[&[u8]], limits: Limits) -> Result<SoundMessage, Refusal> {
    let lent = lent_message(segments)?;
    validate(lent, limits)
}

/// The same for the message whose only segment has these words.
pub fn validate_words(words: &[u8], limits: Limits) -> Result<SoundMessage, Refusal> {
    let message = message_of(words)?;
    validate(message, limits)
}
