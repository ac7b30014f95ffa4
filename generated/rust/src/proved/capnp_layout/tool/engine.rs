//! Runs the program once: reads an input, and writes the answer to a command. Titles in quotes are
//! sections of the encoding specification.

use super::args::Args;
use super::canon::canonicalize_root;
use super::check::is_canonical;
use super::framed::{answer_frame, answer_framed_check, answer_unframe};
use super::frames::write_words_in_form;
use super::lines::{decode_lines, InputFault, Message};
use super::reading::read_to_end;
use super::refusal::Refusal;
use super::size::measure_message;
use super::writing::{write_check, write_refusal};
use crate::proved::capnp_arena::arena::{Allocator, ReaderOptions, ReaderSegments};
use crate::proved::capnp_layout::devices::{DeviceFault, Input, Output};
use crate::proved::capnp_messages::messages::{canonical_bytes, CopyMemory, Form};
use crate::proved::capnp_messages::text::write_size;
use crate::proved::capnp_words::error::ErrorKind;
use crate::proved::support::alloc::Global;

/// How a run ends.
#[derive(Clone, Copy, Debug, PartialEq, Eq)]
pub enum Outcome {
    /// The answer is written.
    Done,
    /// The lines are refused, and the line `refused NAME` is written.
    Refused,
    /// A line isn't pairs of hex digits, there are more lines than the command takes, or the input
    /// failed. Nothing is written.
    BadInput,
    /// The output failed. How many bytes of the answer were written is unspecified.
    WriteFailed,
}

/// Reads a message from `input`, which has one line of hex digits for each segment.
///
/// # Preconditions
///
/// ```text
/// requires { R.has_failed input.old ≡ false }
/// ```
fn read_message<A: Allocator, R: Input>(
    alloc: Global,
    allocator: &mut A,
    input: &mut R,
) -> Result<Message, InputFault> {
    let text = read_to_end(alloc, allocator, input)?;
    decode_lines(alloc, allocator, text.as_slice())
}

/// Returns `outcome` if the text was written, and `WriteFailed` if the output failed.
pub(super) fn outcome_of(written: Result<(), DeviceFault>, outcome: Outcome) -> Outcome {
    match written {
        Ok(()) => outcome,
        Err(DeviceFault) => Outcome::WriteFailed,
    }
}

/// Writes the line `refused NAME`. Returns `Refused` if it is written, and `WriteFailed` if the
/// output fails.
///
/// # Preconditions
///
/// ```text
/// requires { W.has_failed output.old ≡ false }
/// ```
pub(super) fn answer_refusal<W: Output>(output: &mut W, refusal: Refusal) -> Outcome {
    outcome_of(write_refusal(output, refusal), Outcome::Refused)
}

/// Writes the line of the canonical words of `source`, in a frame or without one, depending on
/// `form`; or the line of the refusal.
///
/// # Preconditions
///
/// ```text
/// requires { W.has_failed output.old ≡ false }
/// ```
fn answer_canon<A: Allocator, W: Output>(
    alloc: Global,
    allocator: A,
    source: Message,
    options: ReaderOptions,
    form: Form,
    output: &mut W,
) -> (Outcome, A) {
    match canonicalize_root(alloc, allocator, source, options) {
        Ok(made) => {
            let written = write_words_in_form(output, canonical_bytes(&made), form);
            (outcome_of(written, Outcome::Done), made.into_allocator())
        }
        Err((kind, allocator)) => (answer_refusal(output, Refusal::Layout(kind)), allocator),
    }
}

/// Writes the line that says whether a message is canonical, or the line of the refusal.
///
/// # Preconditions
///
/// ```text
/// requires { W.has_failed output.old ≡ false }
/// ```
fn answer_check<W: Output>(source: Message, options: ReaderOptions, output: &mut W) -> Outcome {
    match is_canonical(source, options) {
        Ok(yes) => outcome_of(write_check(output, yes), Outcome::Done),
        Err(kind) => answer_refusal(output, Refusal::Layout(kind)),
    }
}

/// Writes the line of a message's size, or the line of the refusal.
///
/// # Preconditions
///
/// ```text
/// requires { W.has_failed output.old ≡ false }
/// ```
fn answer_size<W: Output>(source: Message, options: ReaderOptions, output: &mut W) -> Outcome {
    match measure_message(source, options) {
        Ok(size) => outcome_of(write_size(output, size), Outcome::Done),
        Err(kind) => answer_refusal(output, Refusal::Layout(kind)),
    }
}

/// Writes what the command in `args` prints for `lines`, the lines of an input, or the line of the
/// command's refusal.
///
/// # Preconditions
///
/// ```text
/// requires { W.has_failed output.old ≡ false }
/// ```
fn run_command<A: Allocator, W: Output>(
    alloc: Global,
    allocator: A,
    lines: Message,
    args: &Args,
    output: &mut W,
) -> (Outcome, A) {
    match *args {
        Args::Canon(options) => answer_canon(alloc, allocator, lines, options, Form::Flat, output),
        Args::Check(options) => (answer_check(lines, options, output), allocator),
        Args::Size(options) => (answer_size(lines, options, output), allocator),
        Args::Frame => (answer_frame(lines, output), allocator),
        Args::Unframe => (answer_unframe(lines, output), allocator),
        Args::FramedCanon(options) => {
            answer_canon(alloc, allocator, lines, options, Form::Framed, output)
        }
        Args::FramedCheck(options) => (answer_framed_check(lines, options, output), allocator),
    }
}

/// Reads lines from `input`, and writes to `output` the answer to the command in `args`, or a line
/// with `refused` and the name of the refusal. `allocator` grants the segments of copies. Its
/// `keep` appends the bytes that were read to lists, and may refuse memory for them. Precondition:
/// neither `input` nor `output` has failed.
///
/// The answers are, by command:
///
/// - `Canon`: the canonical words of the message's value as lower case hex digits, each word's
///   lowest byte first.
/// - `Check`: `canonical` if the canonical words of a value are at the message's root, otherwise
///   `not canonical`.
/// - `Size`: `words N caps M`, the numbers of words and capabilities that the root leads to,
///   without landing pads, in decimal digits.
/// - `Frame`: the frame of the message as hex digits.
/// - `FramedCanon`: the frame of the message's canonical words as hex digits.
/// - `Unframe`: a line for each segment of the message in the frame at the start of the only line.
/// - `FramedCheck`: `canonical message` or `not a canonical message`.
///
/// The run takes memory for the input, and with `Canon` or `FramedCanon` also for the copy. If a
/// read fails, the outcome is always `BadInput`. The refusal `AllocationFailed` means that memory
/// ran out, and the allocator has counted this refusal.
///
/// # Preconditions
///
/// ```text
/// requires input { R.has_failed input.old ≡ false }
/// requires output { W.has_failed output.old ≡ false }
/// ```
pub fn run_with<A: Allocator, R: Input, W: Output>(
    alloc: Global,
    allocator: A,
    args: &Args,
    input: &mut R,
    output: &mut W,
) -> (Outcome, A) {
    let mut allocator = allocator;
    match read_message(alloc, &mut allocator, input) {
        Ok(source) => run_command(alloc, allocator, source, args, output),
        Err(InputFault::BadInput) => (Outcome::BadInput, allocator),
        Err(InputFault::NoMemory) => (
            answer_refusal(output, Refusal::Layout(ErrorKind::AllocationFailed)),
            allocator,
        ),
    }
}

/// Reads lines from `input`, and writes to `output` the answer to the command in `args`, or a line
/// with `refused` and the name of the refusal. Precondition: neither `input` nor `output` has
/// failed.
///
/// A line of the input is a segment, in pairs of hex digits in either case. An input without bytes
/// has no segments. The root pointer costs one word of the traversal limit. The answers are, by
/// command:
///
/// - `Canon`: the canonical words of the message's value as lower case hex digits, each word's
///   lowest byte first ("Canonicalization").
/// - `Check`: `canonical` if the canonical words of a value are at the root, with the first object
///   right after the root pointer, otherwise `not canonical`. Ignores other segments, and words
///   after the canonical ones.
/// - `Size`: `words N caps M`, the numbers of words and capabilities that the root leads to,
///   without landing pads, in decimal digits ("Structs", "Lists").
/// - `Frame`: the frame of the message as hex digits ("Serialization Over a Stream"). Refusals:
///   `NoSegments` if there are no segments, `TooManySegments` if there are more than 512.
/// - `FramedCanon`: the frame of the canonical words, in one segment. Refuses like `Canon`.
/// - `Unframe`: a line for each segment of the message in the frame at the start of the only line.
/// - `FramedCheck`: `canonical message` if the message in the frame at the start of the only line
///   is the canonical words of a value and nothing else, otherwise `not a canonical message`.
///
/// `Unframe` and `FramedCheck` take one line, with a message of at most 8,388,608 words. If there
/// is more than one line, the outcome is `BadInput`. No line, or an empty line, is refused with
/// `NoMessage`. A line that doesn't begin with a frame is refused with the name with which
/// `framing::read` refuses such an input.
///
/// If a read fails, the outcome is always `BadInput`. The refusal `AllocationFailed` means that
/// memory ran out. `MessageTooLarge` means one of these: the input has 2^32 segments or more, or
/// one of 2^32 words or more; there are more canonical words than a segment can have, 536,870,911;
/// the answer to `Size` would be a number of words that doesn't fit 64 bits, or a number of
/// capabilities that doesn't fit 32 bits.
///
/// # Preconditions
///
/// ```text
/// requires input { R.has_failed input.old ≡ false }
/// requires output { W.has_failed output.old ≡ false }
/// ```
pub fn run<R: Input, W: Output>(
    alloc: Global,
    args: &Args,
    input: &mut R,
    output: &mut W,
) -> Outcome {
    let (outcome, _) = run_with(alloc, CopyMemory::new(alloc), args, input, output);
    outcome
}
