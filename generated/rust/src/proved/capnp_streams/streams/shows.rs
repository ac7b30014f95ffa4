//! Shows a message.

use super::stream_error::StreamError;
use super::task::ShowTask;
use crate::proved::capnp_arena::arena::ReaderSegments;
use crate::proved::capnp_framing::devices::Output;
use crate::proved::capnp_framing::framing::FrameError;
use crate::proved::capnp_pointers::nesting::levels_left;
use crate::proved::capnp_show::show::{show_message, ShowFault, Showing, MOST_BYTES};
use crate::proved::capnp_words::error::ErrorKind;
use crate::proved::support::alloc::Global;

/// Shows message `number`, which is in `segments`. Returns whether each pointer that was followed
/// could be read.
///
/// # Preconditions
///
/// ```text
/// requires small { IsSmall (S.segments segments) }
/// requires works { W.has_failed output.old ≡ false }
/// ```
pub(super) fn show<S: ReaderSegments, W: Output>(
    alloc: Global,
    task: ShowTask,
    number: u64,
    segments: S,
    output: &mut W,
) -> Result<bool, StreamError> {
    let showing = Showing {
        json: task.json,
        values: task.values,
        colors: task.colors,
        depth: levels_left(task.depth),
    };
    let path = task.path.indexes();
    match show_message(alloc, showing, task.limits, number, path, segments, output) {
        Ok(is_sound) => Ok(is_sound),
        Err(ShowFault::AllocationFailed) => {
            Err(StreamError::Layout(ErrorKind::AllocationFailed, None))
        }
        Err(ShowFault::WriteFailed) => Err(StreamError::Frame(FrameError::WriteFailed)),
    }
}
