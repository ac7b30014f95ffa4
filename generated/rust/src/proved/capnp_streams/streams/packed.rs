//! Does a job with each message of a packed stream.

use super::runs::{run, stop_after, Stop, Summary};
use super::stream_error::StreamError;
use super::task::Job;
use crate::proved::capnp_arena::arena::Allocator;
use crate::proved::capnp_framing::devices::{DeviceFault, Input};
use crate::proved::capnp_framing::framing::FrameError;
use crate::proved::capnp_packing::buffered::BufferedOutput;
use crate::proved::capnp_packing::packing::UnpackingInput;
use crate::proved::support::alloc::Global;

/// Unpacks the input `packed` (encoding specification, "Packing"), and does with the unpacked bytes
/// what `run` does with its input. Precondition: neither `packed` nor `output` has failed.
///
/// If the packed bytes end inside a packed word, or where the count after a tag is missing, the run
/// stops with `Truncated`. It has then answered all messages whose frames are complete, and has
/// written nothing for the message that is cut short. The fault `ReadFailed` means that reading
/// from `packed` failed.
///
/// # Preconditions
///
/// ```text
/// requires { AreWorking R.Input W.Output packed output.old }
/// ```
pub fn run_packed<A: Allocator, R: Input, W: BufferedOutput>(
    alloc: Global,
    allocator: A,
    job: Job,
    packed: R,
    output: &mut W,
) -> (Result<Summary, Stop>, A) {
    let mut input = UnpackingInput::new(packed);
    let (answered, allocator) = run(alloc, allocator, job, &mut input, output);
    match answered {
        Ok(summary) => match input.is_whole_at_end() {
            Ok(true) => (Ok(summary), allocator),
            Ok(false) => (Err(stop_after(summary, FrameError::Truncated)), allocator),
            Err(DeviceFault) => (Err(stop_after(summary, FrameError::ReadFailed)), allocator),
        },
        Err(stop) => (Err(stop), allocator),
    }
}
