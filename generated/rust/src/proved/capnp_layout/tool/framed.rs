//! Runs the commands that read or write frames (encoding specification, "Serialization Over a
//! Stream").

use super::args::Args;
use super::engine::{answer_refusal, outcome_of, Outcome};
use super::frames::{write_frame, write_segment_lines};
use super::lines::Message;
use super::refusal::Refusal;
use super::writing::write_message_check;
use crate::proved::capnp_arena::arena::{ReaderArenaImpl, ReaderOptions, ReaderSegments};
use crate::proved::capnp_framing::framing::{
    read_from_flat_slice, FrameError, FrameSegments, MAX_SEGMENTS,
};
use crate::proved::capnp_layout::devices::Output;
use crate::proved::capnp_messages::messages::check;
use crate::proved::capnp_words::error::ErrorKind;

/// The largest number of words that a message read from a frame may have.
const MAX_FRAME_WORDS: u64 = 8_388_608;

/// Returns the message in the frame at the start of the only line. Refusals: `NoMessage` if there
/// is no line or the line is empty; `Frame` if the line doesn't begin with a frame, or this frame
/// has more words than `MAX_FRAME_WORDS`.
///
/// # Preconditions
///
/// ```text
/// requires { length (segments_in lines.now) ≤ 1 }
/// ```
fn read_frame(lines: &Message) -> Result<FrameSegments<'_>, Refusal> {
    let Some(line) = lines.get_segment(0) else {
        return Err(Refusal::NoMessage);
    };
    match read_from_flat_slice(line, MAX_FRAME_WORDS) {
        Ok(Some(frame)) => Ok(frame),
        Ok(None) => Err(Refusal::NoMessage),
        Err(error) => Err(Refusal::Frame(error)),
    }
}

/// Tests whether the message in the frame at the start of the only line is canonical as a whole.
///
/// # Preconditions
///
/// ```text
/// requires { length (segments_in lines.now) ≤ 1 }
/// ```
fn is_canonical_frame(lines: &Message, options: ReaderOptions) -> Result<bool, Refusal> {
    let frame = read_frame(lines)?;
    let source = ReaderArenaImpl::new(frame, options);
    match check(&source, options.traversal_limit_in_words) {
        Ok(fault) => Ok(fault.is_none()),
        Err(kind) => Err(Refusal::Layout(kind)),
    }
}

/// Returns the number of segments of `source`, or a refusal if `source` can't be framed.
fn checked_segment_count(source: &Message) -> Result<usize, Refusal> {
    if !source.is_small() {
        return Err(Refusal::Layout(ErrorKind::MessageTooLarge(usize::MAX)));
    }
    let count = source.len();
    if count == 0 {
        return Err(Refusal::Frame(FrameError::NoSegments));
    }
    if count > MAX_SEGMENTS {
        return Err(Refusal::Frame(FrameError::TooManySegments(count as u64)));
    }
    Ok(count)
}

/// Writes the frame of `source` as a line of hex digits, or the line of the refusal.
///
/// # Preconditions
///
/// ```text
/// requires { W.has_failed output.old ≡ false }
/// ```
pub(in crate::proved::capnp_layout) fn answer_frame<W: Output>(
    source: Message,
    output: &mut W,
) -> Outcome {
    match checked_segment_count(&source) {
        Ok(_) => outcome_of(write_frame(output, &source), Outcome::Done),
        Err(refusal) => answer_refusal(output, refusal),
    }
}

/// Reads the frame at the start of the only line, and writes a line for each segment of its
/// message, or the line of the refusal. If there is more than one line, writes nothing and returns
/// `BadInput`.
///
/// # Preconditions
///
/// ```text
/// requires { W.has_failed output.old ≡ false }
/// ```
pub(in crate::proved::capnp_layout) fn answer_unframe<W: Output>(
    lines: Message,
    output: &mut W,
) -> Outcome {
    if lines.len() > 1 {
        return Outcome::BadInput;
    }
    match read_frame(&lines) {
        Ok(segments) => outcome_of(write_segment_lines(output, &segments), Outcome::Done),
        Err(refusal) => answer_refusal(output, refusal),
    }
}

/// Reads the frame at the start of the only line, and writes the line that says whether its message
/// is canonical as a whole, or the line of the refusal. If there is more than one line, writes
/// nothing and returns `BadInput`.
///
/// # Preconditions
///
/// ```text
/// requires { W.has_failed output.old ≡ false }
/// ```
pub(in crate::proved::capnp_layout) fn answer_framed_check<W: Output>(
    lines: Message,
    options: ReaderOptions,
    output: &mut W,
) -> Outcome {
    if lines.len() > 1 {
        return Outcome::BadInput;
    }
    match is_canonical_frame(&lines, options) {
        Ok(yes) => outcome_of(write_message_check(output, yes), Outcome::Done),
        Err(refusal) => answer_refusal(output, refusal),
    }
}
