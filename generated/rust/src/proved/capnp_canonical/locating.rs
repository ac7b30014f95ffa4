//! The pointer at which a message is broken, in the form for C.

use crate::proved::capnp_arena::arena::ReaderSegments;
use crate::proved::capnp_canonical::calls::Limits;
use crate::proved::capnp_canonical::frames::message_in;
use crate::proved::capnp_canonical::refusal::Refusal;
use crate::proved::capnp_canonical::segments::lent_message;
use crate::proved::capnp_canonical::words::message_of;
use crate::proved::capnp_messages::messages::{Command, Form};
use crate::proved::capnp_refusals::refusals::{refused_pointer, RefusedPointer};

/// The pointer at which reading a message stops.
#[repr(C)]
#[derive(Clone, Copy)]
pub struct BrokenPointer {
    /// The number of the refusal; 0 if the whole value is read.
    pub refusal: u32,
    /// The position of the pointer in its segment, in words.
    pub word: u32,
    /// The number of the pointer's segment.
    pub segment: u64,
}

/// No pointer: the whole value is read.
pub const NO_POINTER: BrokenPointer = BrokenPointer {
    refusal: 0,
    word: 0,
    segment: 0,
};

impl BrokenPointer {
    /// Returns the pointer that was found, with its refusal as a number; `NO_POINTER` for `None`.
    fn of(found: Option<RefusedPointer>) -> Self {
        match found {
            Some(pointer) => BrokenPointer {
                refusal: Refusal::Layout(pointer.refusal).number(),
                word: pointer.word,
                segment: pointer.segment,
            },
            None => NO_POINTER,
        }
    }
}

/// The command that reads a message like the reading with this number. A number of no reading
/// counts as 0.
fn command_of_reading(reading: u32) -> Command {
    match reading {
        1 => Command::Canon(Form::Flat),
        2 => Command::Size,
        _ => Command::Validate,
    }
}

/// Returns the pointer at which a reading of the message in `segments` stops.
///
/// # Preconditions
///
/// ```text
/// requires { IsSmall (S.segments segments) }
/// ```
fn locate<S: ReaderSegments>(segments: S, limits: Limits, reading: u32) -> BrokenPointer {
    BrokenPointer::of(refused_pointer(
        command_of_reading(reading),
        segments,
        limits.options(),
    ))
}

/// Returns the pointer at which a reading of the message whose frame is at the front of `frame`
/// stops.
pub fn locate_in_frame(
    frame: &[u8],
    limits: Limits,
    reading: u32,
) -> Result<BrokenPointer, Refusal> {
    let segments = message_in(frame, limits.words)?;
    Ok(locate(segments, limits, reading))
}

/// The same for the message of these segments.
pub fn locate_in_segments(
    segments: &[&[u8]],
    limits: Limits,
    reading: u32,
) -> Result<BrokenPointer, Refusal> {
    let lent = lent_message(segments)?;
    Ok(locate(lent, limits, reading))
}

/// The same for the message whose only segment has these words.
pub fn locate_in_words(
    words: &[u8],
    limits: Limits,
    reading: u32,
) -> Result<BrokenPointer, Refusal> {
    let message = message_of(words)?;
    Ok(locate(message, limits, reading))
}
