//! Does a job with the one message that an input holds as raw words, without a frame.

use super::answers::{do_job, Memory};
use super::stream_error::StreamError;
use super::task::Job;
use crate::proved::capnp_arena::arena::Allocator;
use crate::proved::capnp_framing::devices::{Input, Output};
use crate::proved::capnp_framing::framing::{most_words, read_segment_into_with, OwnedSegments};
use crate::proved::support::alloc::Global;

/// Does `job` with the one message that the input holds as raw words, and writes the answer.
/// Returns `holds` of `Summary`. Precondition: neither `input` nor `output` has failed.
///
/// All bytes of the input are read as the words of the message's only segment, without a frame, as
/// `Canon` writes them in the form `Flat` (encoding specification, "Canonicalization"). The number
/// of these words may be at most the traversal limit. The answer is the one that `run` writes
/// for the message. An empty input is a segment without words, so without a root pointer; it is
/// refused with `MessageContainsOutOfBoundsPointer`.
///
/// Refusals: `Truncated` if the bytes end inside a word; `MessageTooLong` if there are more words
/// than the limit; the fault of the message, if it can't be copied, tested or measured;
/// `WriteFailed` if the output failed. After any refusal except `WriteFailed`, nothing has been
/// written. If the raw words are a message that has an answer within the limits, the call is
/// refused only if memory runs out, or if the input or the output fails.
///
/// Memory for copies comes from `allocator`. Memory for the bytes read comes from the heap; only if
/// the heap has none, it is requested from `allocator`. So a limit of `allocator` doesn't limit
/// this memory. If the call is refused with `AllocationFailed`, the allocator has counted one more
/// refusal (`A.refusals`); after any other result it has counted none. `Check` and `Size` take
/// memory only for the bytes read.
///
/// # Preconditions
///
/// ```text
/// requires { AreWorking R.Input W.Output input.old output.old }
/// ```
pub fn run_flat<A: Allocator, R: Input, W: Output>(
    alloc: Global,
    allocator: A,
    job: Job,
    input: &mut R,
    output: &mut W,
) -> (Result<bool, StreamError>, A) {
    let mut allocator = allocator;
    let mut segments = OwnedSegments::new(alloc);
    match read_segment_into_with(
        &mut allocator,
        input,
        most_words(job.limits()),
        &mut segments,
    ) {
        Ok(()) => {
            let mut memory = Memory::new(alloc, allocator);
            let done = do_job(&mut memory, job, 1, &segments, output);
            (done, memory.into_allocator())
        }
        Err(error) => (Err(StreamError::Frame(error)), allocator),
    }
}
