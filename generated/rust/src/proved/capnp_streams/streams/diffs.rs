//! Compares the messages of two streams.

use super::parts::validate;
use super::runs::Stop;
use super::stream_error::StreamError;
use super::task::DiffTask;
use crate::proved::capnp_arena::arena::{ReaderOptions, ReaderSegments};
use crate::proved::capnp_framing::devices::{write_all, DeviceFault, Input, Output};
use crate::proved::capnp_framing::framing::{
    most_words, read_into, read_segment_into, FrameError, OwnedSegments,
};
use crate::proved::capnp_messages::messages::Command;
use crate::proved::capnp_messages::text::write_number;
use crate::proved::capnp_packing::buffered::{flush_before_waiting, BufferedInput, BufferedOutput};
use crate::proved::capnp_packing::packing::UnpackingInput;
use crate::proved::capnp_refusals::refusals::pointer_of_refusal;
use crate::proved::capnp_show::show::{compare_messages, CompareFault};
use crate::proved::support::alloc::Global;

/// One of the two inputs.
#[derive(Clone, Copy, Debug, PartialEq, Eq)]
pub enum Side {
    Left,
    Right,
}

/// The result of a run that has compared all messages that both inputs have.
#[derive(Clone, Copy, Debug, PartialEq, Eq)]
pub struct Compared {
    /// Whether the lines of each two messages are equal, and there are as many in both inputs.
    pub is_same: bool,
    /// The number of messages that both inputs have.
    pub messages: u64,
    /// The input that has more messages.
    pub longer: Option<Side>,
    /// The total size of the frames of these messages in `left`, in bytes, at most `u64::MAX`.
    pub left_bytes: u64,
    /// The same in `right`.
    pub right_bytes: u64,
}

/// Why comparing stopped.
#[derive(Clone, Copy, Debug, PartialEq, Eq)]
pub enum DiffFault {
    /// The next message of this input is refused: its frame can't be read, or it isn't sound.
    Refused(Side, Stop),
    /// The messages of this number are too long to be compared.
    TooLong(u64),
    /// Memory ran out.
    AllocationFailed,
    /// Writing to the output failed.
    WriteFailed,
}

/// The result for two messages that were compared.
#[derive(Clone, Copy)]
struct ComparedPair {
    /// Whether their lines are equal.
    is_same: bool,
    /// The size of the first message's frame in bytes.
    left_bytes: u64,
    /// The same of the second one.
    right_bytes: u64,
}

/// What a step of a run did.
#[derive(Clone, Copy)]
enum DiffStep {
    /// It compared two messages.
    Pair(ComparedPair),
    /// One of the inputs, or both, have no more messages; this one has.
    Ended(Option<Side>),
}

/// The messages that were read last.
struct MessagePair {
    left: OwnedSegments,
    right: OwnedSegments,
}

impl MessagePair {
    /// Makes the messages of a run before its first step.
    fn new(alloc: Global) -> Self {
        MessagePair {
            left: OwnedSegments::new(alloc),
            right: OwnedSegments::new(alloc),
        }
    }
}

impl Compared {
    /// The result before the first two messages.
    fn none() -> Self {
        Compared {
            is_same: true,
            messages: 0,
            longer: None,
            left_bytes: 0,
            right_bytes: 0,
        }
    }

    /// The result after two more messages.
    ///
    /// # Preconditions
    ///
    /// ```text
    /// requires { self.messages + 1 < 2 ^ 64 }
    /// ```
    fn with_pair(self, pair: ComparedPair) -> Self {
        Compared {
            is_same: self.is_same && pair.is_same,
            messages: self.messages + 1,
            longer: None,
            left_bytes: self.left_bytes.saturating_add(pair.left_bytes),
            right_bytes: self.right_bytes.saturating_add(pair.right_bytes),
        }
    }

    /// The result at the end of the inputs, or of one if `longer` has more messages.
    fn ended(self, longer: Option<Side>) -> Self {
        Compared {
            is_same: self.is_same && longer.is_none(),
            longer,
            ..self
        }
    }

    /// The fault if the next message of this input is refused.
    fn refusal(self, side: Side, fault: StreamError) -> DiffFault {
        let byte = match side {
            Side::Left => self.left_bytes,
            Side::Right => self.right_bytes,
        };
        DiffFault::Refused(
            side,
            Stop {
                answered: self.messages,
                byte,
                fault,
            },
        )
    }
}

/// Reads the next message of an input, and tests whether it is sound. Returns `false` at the end of
/// the input.
///
/// # Preconditions
///
/// ```text
/// requires { R.has_failed input.old ≡ false }
/// ```
fn read_next<R: Input>(
    limits: ReaderOptions,
    input: &mut R,
    into: &mut OwnedSegments,
) -> Result<bool, StreamError> {
    match read_into(input, most_words(limits), into) {
        Ok(true) => match unsound_fault(into, limits) {
            None => Ok(true),
            Some(fault) => Err(fault),
        },
        Ok(false) => Ok(false),
        Err(error) => Err(StreamError::Frame(error)),
    }
}

/// Reads the raw words of the one message of an input, and tests whether it is sound.
///
/// # Preconditions
///
/// ```text
/// requires { R.has_failed input.old ≡ false }
/// ```
fn read_flat<R: Input>(
    limits: ReaderOptions,
    input: &mut R,
    into: &mut OwnedSegments,
) -> Result<(), StreamError> {
    match read_segment_into(input, most_words(limits), into) {
        Ok(()) => match unsound_fault(into, limits) {
            None => Ok(()),
            Some(fault) => Err(fault),
        },
        Err(error) => Err(StreamError::Frame(error)),
    }
}

/// Why the message isn't sound; `None` if its whole value can be read within the limits.
///
/// # Preconditions
///
/// ```text
/// requires { IsSmall (⟦<OwnedSegments as ReaderSegments>⟧.segments segments.now) }
/// ```
fn unsound_fault(segments: &OwnedSegments, limits: ReaderOptions) -> Option<StreamError> {
    match validate(segments, limits) {
        Ok(_) => None,
        Err(kind) => {
            let pointer = pointer_of_refusal(kind, Command::Validate, segments, limits);
            Some(StreamError::Layout(kind, pointer))
        }
    }
}

/// Compares two messages, which are sound. They are message `number` of their inputs.
///
/// # Preconditions
///
/// ```text
/// requires left { IsSmall (⟦<OwnedSegments as ReaderSegments>⟧.segments read.now.left) }
/// requires right { IsSmall (⟦<OwnedSegments as ReaderSegments>⟧.segments read.now.right) }
/// requires left_sound { IsReadable
///     (message (⟦<OwnedSegments as ReaderSegments>⟧.segments read.now.left)) limits }
/// requires right_sound { IsReadable
///     (message (⟦<OwnedSegments as ReaderSegments>⟧.segments read.now.right)) limits }
/// requires works { W.has_failed output.old ≡ false }
/// ```
fn compare<W: Output>(
    alloc: Global,
    limits: ReaderOptions,
    number: u64,
    read: &MessagePair,
    output: &mut W,
) -> Result<bool, DiffFault> {
    match compare_messages(alloc, limits, number, &read.left, &read.right, output) {
        Ok(is_same) => Ok(is_same),
        Err(fault) => Err(fault_of_message(number, fault)),
    }
}

/// The fault of a run if message `number` of its inputs isn't compared.
fn fault_of_message(number: u64, fault: CompareFault) -> DiffFault {
    match fault {
        CompareFault::AllocationFailed => DiffFault::AllocationFailed,
        CompareFault::TooLong => DiffFault::TooLong(number),
        CompareFault::WriteFailed => DiffFault::WriteFailed,
    }
}

/// Reads the next message of each input, and compares them.
///
/// Precondition: `counts` says what was compared before.
///
/// # Preconditions
///
/// ```text
/// requires works { AreAllWorking L.Input R.Input W.Output left.old right.old output.old }
/// requires few { counts.messages + 1 < 2 ^ 64 }
/// ```
fn compare_next<L: Input, R: Input, W: Output>(
    alloc: Global,
    limits: ReaderOptions,
    counts: Compared,
    read: &mut MessagePair,
    left: &mut L,
    right: &mut R,
    output: &mut W,
) -> Result<DiffStep, DiffFault> {
    let has_left = match read_next(limits, left, &mut read.left) {
        Ok(has) => has,
        Err(fault) => return Err(counts.refusal(Side::Left, fault)),
    };
    let has_right = match read_next(limits, right, &mut read.right) {
        Ok(has) => has,
        Err(fault) => return Err(counts.refusal(Side::Right, fault)),
    };
    if !has_left && !has_right {
        return Ok(DiffStep::Ended(None));
    }
    if !has_left {
        return Ok(DiffStep::Ended(Some(Side::Right)));
    }
    if !has_right {
        return Ok(DiffStep::Ended(Some(Side::Left)));
    }
    match compare(alloc, limits, counts.messages + 1, &*read, output) {
        Ok(is_same) => Ok(DiffStep::Pair(ComparedPair {
            is_same,
            left_bytes: read.left.size_in_bytes() as u64,
            right_bytes: read.right.size_in_bytes() as u64,
        })),
        Err(fault) => Err(fault),
    }
}

/// Writes the number of a message.
///
/// # Preconditions
///
/// ```text
/// requires { W.has_failed output.old ≡ false }
/// ```
fn write_message_number<W: Output>(output: &mut W, number: u64) -> Result<(), DeviceFault> {
    write_all(output, b"message ")?;
    write_number(output, number)
}

/// Writes that only one input has message `number`.
///
/// # Preconditions
///
/// ```text
/// requires { W.has_failed output.old ≡ false }
/// ```
fn write_unmatched_line<W: Output>(
    output: &mut W,
    number: u64,
    side: Side,
) -> Result<(), DeviceFault> {
    write_message_number(output, number)?;
    match side {
        Side::Left => write_all(output, b": only in the first file\n"),
        Side::Right => write_all(output, b": only in the second file\n"),
    }
}

/// Writes that the input `longer`, if there is one, has message `number`.
///
/// # Preconditions
///
/// ```text
/// requires { W.has_failed output.old ≡ false }
/// ```
fn write_end<W: Output>(
    output: &mut W,
    number: u64,
    longer: Option<Side>,
) -> Result<(), DeviceFault> {
    match longer {
        Some(side) => write_unmatched_line(output, number, side),
        None => Ok(()),
    }
}

/// Flushes the output, unless the next messages of both inputs are already in their buffers.
///
/// # Preconditions
///
/// ```text
/// requires { W.has_failed output.old ≡ false }
/// ```
fn flush_before_reading<L: BufferedInput, R: BufferedInput, W: BufferedOutput>(
    left: &L,
    right: &R,
    output: &mut W,
) -> Result<(), DeviceFault> {
    flush_before_waiting(left, output)?;
    flush_before_waiting(right, output)
}

/// Compares each message of `left` with the message of the same number of `right`, and writes for
/// each two what `compare_messages` writes about them. If one input has more messages, writes
/// `message N: only in the first file` or `.. the second file`, where N is the number of the first
/// of them, and reads no further.
///
/// Precondition: none of `left`, `right` and `output` has failed.
///
/// Both inputs are streams of frames. The number of words of each message may be at most the
/// traversal limit. Each message has to be sound within the limits.
///
/// Refusals: `Refused` if a frame can't be read, or a message isn't sound; `TooLong` if the line of
/// a message is too long; `AllocationFailed`; `WriteFailed` if the output failed. What was written
/// before stays written.
///
/// # Preconditions
///
/// ```text
/// requires left { L.has_failed left.old ≡ false }
/// requires right { R.has_failed right.old ≡ false }
/// requires works { W.has_failed output.old ≡ false }
/// ```
pub fn run_diff<L: BufferedInput, R: BufferedInput, W: BufferedOutput>(
    alloc: Global,
    task: DiffTask,
    left: &mut L,
    right: &mut R,
    output: &mut W,
) -> Result<Compared, DiffFault> {
    let mut read = MessagePair::new(alloc);
    let mut counts = Compared::none();
    for number in 1..u64::MAX {
        if flush_before_reading(&*left, &*right, output).is_err() {
            return Err(DiffFault::WriteFailed);
        }
        match compare_next(alloc, task.limits, counts, &mut read, left, right, output) {
            Ok(DiffStep::Pair(pair)) => counts = counts.with_pair(pair),
            Ok(DiffStep::Ended(longer)) => {
                if write_end(output, number, longer).is_err() {
                    return Err(DiffFault::WriteFailed);
                }
                return Ok(counts.ended(longer));
            }
            Err(fault) => return Err(fault),
        }
    }
    Err(DiffFault::TooLong(u64::MAX))
}

/// Unpacks both inputs (encoding specification, "Packing"), and does with the unpacked bytes what
/// `run_diff` does with its inputs. If the packed bytes of an input are cut short after its last
/// message, the run is refused with `Truncated`. Precondition: none of `left`, `right` and `output`
/// has failed.
///
/// # Preconditions
///
/// ```text
/// requires left { L.has_failed left ≡ false }
/// requires right { R.has_failed right ≡ false }
/// requires works { W.has_failed output.old ≡ false }
/// ```
pub fn run_diff_packed<L: Input, R: Input, W: BufferedOutput>(
    alloc: Global,
    task: DiffTask,
    left: L,
    right: R,
    output: &mut W,
) -> Result<bool, DiffFault> {
    let mut left = UnpackingInput::new(left);
    let mut right = UnpackingInput::new(right);
    let compared = run_diff(alloc, task, &mut left, &mut right, output)?;
    match check_ends(compared, &mut left, &mut right) {
        Ok(()) => Ok(compared.is_same),
        Err(fault) => Err(fault),
    }
}

/// Tests that the packed inputs that aren't longer aren't cut short after their last message.
///
/// # Preconditions
///
/// ```text
/// requires { EndsRead compared.longer (⟦<UnpackingInput<L> as Input>⟧.remaining left.old)
///     (⟦<UnpackingInput<R> as Input>⟧.remaining right.old) }
/// ```
fn check_ends<L: Input, R: Input>(
    compared: Compared,
    left: &mut UnpackingInput<L>,
    right: &mut UnpackingInput<R>,
) -> Result<(), DiffFault> {
    match compared.longer {
        Some(Side::Left) => check_whole_at_end(Side::Right, compared, right),
        Some(Side::Right) => check_whole_at_end(Side::Left, compared, left),
        None => {
            check_whole_at_end(Side::Left, compared, left)?;
            check_whole_at_end(Side::Right, compared, right)
        }
    }
}

/// Tests that a packed input isn't cut short after its last message.
///
/// # Preconditions
///
/// ```text
/// requires { IsAtEnd (⟦<UnpackingInput<R> as Input>⟧.remaining input.old) }
/// ```
fn check_whole_at_end<R: Input>(
    side: Side,
    compared: Compared,
    input: &mut UnpackingInput<R>,
) -> Result<(), DiffFault> {
    let error = match input.is_whole_at_end() {
        Ok(true) => return Ok(()),
        Ok(false) => FrameError::Truncated,
        Err(DeviceFault) => FrameError::ReadFailed,
    };
    Err(compared.refusal(side, StreamError::Frame(error)))
}

/// Compares the messages that both inputs hold as raw words, without a frame, like `run_diff`.
/// Precondition: none of `left`, `right` and `output` has failed.
///
/// # Preconditions
///
/// ```text
/// requires left { L.has_failed left.old ≡ false }
/// requires right { R.has_failed right.old ≡ false }
/// requires works { W.has_failed output.old ≡ false }
/// ```
pub fn run_diff_flat<L: Input, R: Input, W: Output>(
    alloc: Global,
    task: DiffTask,
    left: &mut L,
    right: &mut R,
    output: &mut W,
) -> Result<bool, DiffFault> {
    let mut read = MessagePair::new(alloc);
    if let Err(fault) = read_flat(task.limits, left, &mut read.left) {
        return Err(Compared::none().refusal(Side::Left, fault));
    }
    if let Err(fault) = read_flat(task.limits, right, &mut read.right) {
        return Err(Compared::none().refusal(Side::Right, fault));
    }
    compare(alloc, task.limits, 1, &read, output)
}
