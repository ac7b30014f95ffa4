//! Shows one message.

use super::json::{write_path_end, Json};
use super::lines::{show_element, show_pointer, Lines};
use super::text::{Ended, MOST_BYTES};
use crate::proved::capnp_arena::arena::{
    ReaderArena, ReaderArenaImpl, ReaderOptions, ReaderSegments,
};
use crate::proved::capnp_framing::devices::Output;
use crate::proved::capnp_messages::messages::{read_part, Reached};
use crate::proved::capnp_words::read_limiter::ReadLimiter;
use crate::proved::support::alloc::Global;

/// How messages are shown.
#[derive(Clone, Copy, Debug, PartialEq, Eq)]
pub struct Showing {
    /// Whether each message is one line of JSON.
    pub json: bool,
    /// Whether places are left out, so that equal values are shown alike.
    pub values: bool,
    /// Whether parts of the lines have colors, by control sequences of a terminal. JSON has none.
    pub colors: bool,
    /// How many pointers below the first one are followed.
    pub depth: u32,
}

/// Why a message isn't shown.
#[derive(Clone, Copy, Debug, PartialEq, Eq)]
pub enum ShowFault {
    /// Memory ran out.
    AllocationFailed,
    /// Writing to the output failed.
    WriteFailed,
}

/// Shows the message in `segments`, or the part of it to which `path` leads: writes what it holds
/// to `output`, in the form that `showing` describes. Returns whether each pointer that was
/// followed could be read. Preconditions: `segments` has fewer than 2^32 segments, each of fewer
/// than 2^32 words; `output` hasn't failed.
///
/// The first pointer is the one that `read_part` of `capnp_messages` finds; with an empty `path` it
/// is the root pointer. If the path leads to an element of a list of structs, what is shown first is
/// this struct. If the path is refused, what is shown is the name of this refusal. Objects are read
/// like `Source::read_object`, within `limits`. A pointer that can't be read is shown with the name
/// of the refusal, and the pointers after it are still read. Writes at most `MOST_BYTES` bytes: if
/// they don't suffice, the lines end with one that says so, and a line of JSON is replaced by one
/// that says so.
///
/// Refusals: `AllocationFailed` if memory runs out, and then nothing is written; `WriteFailed` if
/// the output fails.
///
/// # Preconditions
///
/// ```text
/// requires small { IsSmall (S.segments segments) }
/// requires works { W.has_failed output.old ≡ false }
/// ```
pub fn show_message<S: ReaderSegments, W: Output>(
    alloc: Global,
    showing: Showing,
    limits: ReaderOptions,
    number: u64,
    path: &[u32],
    segments: S,
    output: &mut W,
) -> Result<bool, ShowFault> {
    let count = segments.len() as u64;
    let arena = ReaderArenaImpl::new(segments, limits);
    if showing.json {
        let json = make_json(alloc, showing, limits, number, count, path, &arena)?;
        json.text.write(output, ShowFault::WriteFailed)?;
        Ok(json.is_sound)
    } else {
        let lines = make_lines(alloc, showing, limits, number, count, path, &arena)?;
        lines.text.write(output, ShowFault::WriteFailed)?;
        Ok(lines.is_sound)
    }
}

/// Returns the lines of a message of `count` segments.
fn make_lines<S: ReaderSegments>(
    alloc: Global,
    showing: Showing,
    limits: ReaderOptions,
    number: u64,
    count: u64,
    path: &[u32],
    arena: &ReaderArenaImpl<S>,
) -> Result<Lines, ShowFault> {
    let lim = ReadLimiter::new(limits.traversal_limit_in_words);
    let mut lines = Lines::new(alloc, lim, showing);
    write_lines(arena, number, count, path, &mut lines);
    match lines.finish() {
        Ok(()) => Ok(lines),
        Err(_) => Err(ShowFault::AllocationFailed),
    }
}

/// Writes the lines of a message of `count` segments.
fn write_lines<S: ReaderSegments>(
    arena: &ReaderArenaImpl<S>,
    number: u64,
    count: u64,
    path: &[u32],
    lines: &mut Lines,
) {
    lines.write_head(number, count, arena.size_in_words() as u64);
    lines.begin_path(path);
    match read_part(arena, path, &mut lines.lim) {
        Ok(Reached::Pointer(root)) => show_pointer(root, lines.depth, lines),
        Ok(Reached::Element(element)) => show_element(element, lines.depth, lines),
        Err(kind) => lines.write_no_root(kind.name()),
    }
}

/// Returns the line of JSON of a message of `count` segments.
fn make_json<S: ReaderSegments>(
    alloc: Global,
    showing: Showing,
    limits: ReaderOptions,
    number: u64,
    count: u64,
    path: &[u32],
    arena: &ReaderArenaImpl<S>,
) -> Result<Json, ShowFault> {
    let lim = ReadLimiter::new(limits.traversal_limit_in_words);
    let mut json = Json::new(alloc, lim, !showing.values);
    match write_json(arena, number, count, path, showing.depth, &mut json) {
        Ok(()) => Ok(json),
        Err(Ended::Full) => cut_line(json),
        Err(_) => Err(ShowFault::AllocationFailed),
    }
}

/// Returns the line that says that a message isn't shown, since its line would be too long.
fn cut_line(mut json: Json) -> Result<Json, ShowFault> {
    match json.write_cut() {
        Ok(()) => Ok(json),
        Err(_) => Err(ShowFault::AllocationFailed),
    }
}

/// Writes the line of JSON of a message of `count` segments.
pub(super) fn write_json<S: ReaderSegments>(
    arena: &ReaderArenaImpl<S>,
    number: u64,
    count: u64,
    path: &[u32],
    depth: u32,
    json: &mut Json,
) -> Result<(), Ended> {
    json.write_head(number, count, arena.size_in_words() as u64)?;
    let end = read_part(arena, path, &mut json.lim);
    write_path_end(end, depth, json)?;
    json.write_tail()
}
