//! Does a job with each message of a stream.

use super::answers::{do_job, Memory};
use super::stream_error::StreamError;
use super::task::Job;
use crate::proved::capnp_arena::arena::Allocator;
use crate::proved::capnp_framing::devices::{Input, Output};
use crate::proved::capnp_framing::framing::{
    most_words, read_into_with, FrameError, OwnedSegments,
};
use crate::proved::capnp_packing::buffered::{flush_before_waiting, BufferedInput, BufferedOutput};
use crate::proved::support::alloc::Global;

/// The result of a run that has answered all messages of a stream.
#[derive(Clone, Copy, Debug, PartialEq, Eq)]
pub struct Summary {
    /// The number of messages.
    pub messages: u64,
    /// The total size of their frames in bytes, at most `u64::MAX`.
    pub bytes: u64,
    /// For `Check`, whether every message is canonical; if messages are shown, whether each pointer
    /// that was followed could be read; for any other command, always `true`.
    pub holds: bool,
}

/// Where and why answering a stream stopped.
#[derive(Clone, Copy, Debug, PartialEq, Eq)]
pub struct Stop {
    /// The number of messages answered.
    pub answered: u64,
    /// The byte of the input at which the frame of the next message begins, counted from 0: the
    /// total size of the answered frames, at most `u64::MAX`. For a packed input, this is a
    /// position in the unpacked bytes.
    pub byte: u64,
    /// Why the next message isn't answered.
    pub fault: StreamError,
}

/// The result for one message that was answered.
#[derive(Clone, Copy)]
pub(super) struct Answered {
    /// For `Check`, whether the message is canonical; if it is shown, whether each pointer that was
    /// followed could be read; for any other command, `true`.
    pub(super) holds: bool,
    /// The size of the message's frame in bytes.
    pub(super) bytes: u64,
}

/// Returns the `Stop` whose fault is `error`, after the messages that `summary` counts.
pub(super) fn stop_after(summary: Summary, error: FrameError) -> Stop {
    Stop {
        answered: summary.messages,
        byte: summary.bytes,
        fault: StreamError::Frame(error),
    }
}

/// Reads message `number` and does `job` with it. Returns `None` at the end of the input.
///
/// Precondition: the whole frame of the message is in the input's buffer, or the output has flushed
/// all its bytes. So no read waits for a sender while the output still holds an answer.
///
/// # Preconditions
///
/// ```text
/// requires there { IsSome memory.old.allocator }
/// requires work { AreWorking R.Input W.Output input.old output.old }
/// requires passed_on { R.has_enough input.old ⊎ (W.kept output.old ≡ 0) }
/// ```
fn answer_next<A: Allocator, R: BufferedInput, W: BufferedOutput>(
    job: Job,
    number: u64,
    input: &mut R,
    segments: &mut OwnedSegments,
    memory: &mut Memory<A>,
    output: &mut W,
) -> Result<Option<Answered>, StreamError> {
    let Some(allocator) = &mut memory.allocator else {
        unreachable!()
    };
    match read_into_with(allocator, input, most_words(job.limits()), segments) {
        Ok(false) => Ok(None),
        Ok(true) => match do_job(memory, job, number, &*segments, output) {
            Ok(holds) => Ok(Some(Answered {
                holds,
                bytes: segments.size_in_bytes() as u64,
            })),
            Err(fault) => Err(fault),
        },
        Err(error) => Err(StreamError::Frame(error)),
    }
}

/// Flushes the answers so far, unless message `number` is already in the input's buffer; then reads
/// this message and does `job` with it. Returns `None` at the end of the input.
///
/// # Preconditions
///
/// ```text
/// requires there { IsSome memory.old.allocator }
/// requires work { AreWorking R.Input W.Output input.old output.old }
/// ```
fn flush_and_answer_next<A: Allocator, R: BufferedInput, W: BufferedOutput>(
    job: Job,
    number: u64,
    input: &mut R,
    segments: &mut OwnedSegments,
    memory: &mut Memory<A>,
    output: &mut W,
) -> Result<Option<Answered>, StreamError> {
    if flush_before_waiting(input, output).is_err() {
        return Err(StreamError::Frame(FrameError::WriteFailed));
    }
    answer_next(job, number, input, segments, memory, output)
}

/// Does `job` with each message of the input, and writes the answers in the order of the messages.
/// Precondition: neither `input` nor `output` has failed.
///
/// The input is a stream of frames. The number of words of each message may be at most the
/// traversal limit. The nesting limit and the traversal limit apply to each message separately. The
/// answers are, by command:
///
/// - `Canon`: the message's canonical words (encoding specification, "Canonicalization"), as a
///   frame of one segment or without a frame; with `hex`, as a line of lower case hex digits, two a
///   byte.
/// - `Check`: the line `canonical` if the message as a whole is canonical, otherwise
///   `not canonical: REASON at segment S, word W`.
/// - `Size`: the line `words N caps M`, without landing pads.
///
/// - `Digest`: the SHA-256 of the canonical words, as a line of hex digits.
/// - `Validate`: a line with the extent of the message.
///
/// A message is shown as the text that `show_message` writes: at most `MOST_BYTES` bytes. What
/// `bytes` of the task says isn't looked at: a caller bounds the output itself, by `BoundedOutput`.
///
/// If the task's path has indexes, `Canon`, `Digest` and `Size` are about the part of each message
/// to which it leads; a message in which it leads nowhere is refused with `NoSuchPlace`.
///
/// The run ends at the first message that isn't answered: its frame can't be read, the message is
/// refused, or the output fails. Unless the output failed, the output then has the answers to all
/// messages before this one, and no byte for this one. If the input is a stream of frames whose
/// messages all have an answer within the limits, the run is refused only if memory runs out, if
/// the input or the output fails, or if there are more messages than a `u64` can count. Holds one
/// message in memory at a time, and takes memory for a message only if it is larger than all before
/// it. After a message that is refused, takes nothing more from the input. Flushes the answers so
/// far before it reads a message that isn't already in the input's buffer: no clause of this
/// contract states this, but a precondition of `answer_next` does.
///
/// Memory for copies comes from `allocator`. Memory for the frames read comes from the heap; only
/// if the heap has none, it is requested from `allocator`. So a limit of `allocator` doesn't limit
/// this memory. If the run stops with `AllocationFailed`, the allocator has counted one more
/// refusal (`A.refusals`); after any other result it has counted none. `Check` and `Size` take
/// memory only for the frames read. Memory for texts that are shown comes from the heap.
///
/// # Preconditions
///
/// ```text
/// requires { AreWorking R.Input W.Output input.old output.old }
/// ```
pub fn run<A: Allocator, R: BufferedInput, W: BufferedOutput>(
    alloc: Global,
    allocator: A,
    job: Job,
    input: &mut R,
    output: &mut W,
) -> (Result<Summary, Stop>, A) {
    let mut segments = OwnedSegments::new(alloc);
    let mut memory = Memory::new(alloc, allocator);
    let mut bytes = 0u64;
    let mut holds = true;
    for number in 0..u64::MAX {
        match flush_and_answer_next(job, number + 1, input, &mut segments, &mut memory, output) {
            Ok(None) => {
                let summary = Summary {
                    messages: number,
                    bytes,
                    holds,
                };
                return (Ok(summary), memory.into_allocator());
            }
            Ok(Some(here)) => {
                bytes = bytes.saturating_add(here.bytes);
                holds &= here.holds;
            }
            Err(fault) => {
                let stop = Stop {
                    answered: number,
                    byte: bytes,
                    fault,
                };
                return (Err(stop), memory.into_allocator());
            }
        }
    }
    let stop = Stop {
        answered: u64::MAX,
        byte: bytes,
        fault: StreamError::TooManyMessages,
    };
    (Err(stop), memory.into_allocator())
}
