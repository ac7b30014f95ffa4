//! Compares the values of two messages.

use super::json::{Json, Search};
use super::message::write_json;
use super::path::push_path;
use super::text::{text_prefix, Ended, Text, CUT_LINE, MOST_BYTES};
use crate::proved::capnp_arena::arena::{
    ReaderArena, ReaderArenaImpl, ReaderOptions, ReaderSegments,
};
use crate::proved::capnp_framing::devices::Output;
use crate::proved::capnp_pointers::nesting::levels_left;
use crate::proved::capnp_words::read_limiter::ReadLimiter;
use crate::proved::support::alloc::Global;

/// Why two messages aren't compared.
#[derive(Clone, Copy, Debug, PartialEq, Eq)]
pub enum CompareFault {
    /// Memory ran out.
    AllocationFailed,
    /// The line of one of the messages would have more than 67,108,799 bytes.
    TooLong,
    /// Writing to the output failed.
    WriteFailed,
}

/// Where two lines differ.
#[derive(Clone, Copy)]
struct Difference {
    /// The position of the first byte in which they differ.
    at: usize,
    /// Where the text of the object that differs begins at the latest.
    latest: usize,
}

/// Compares the values of the messages in `left` and `right`: the lines that `show_message` writes of
/// them in JSON without places, with all pointers followed within `limits`. If the lines are equal,
/// writes nothing and returns `true`. Otherwise writes three lines to `output` and returns `false`:
/// `message`, `number` and the path to the first object whose text differs; `<` and its text in
/// `left`; `>` and its text in `right`. Of a text, at most 1,024 bytes are written, and then two dots.
/// If all this has more than `MOST_BYTES` bytes, it ends with a line that says so.
///
/// Preconditions: `left` and `right` each have fewer than 2^32 segments, each of fewer than 2^32
/// words; `output` hasn't failed.
///
/// A pointer that can't be read has the name of its refusal in the line. If both messages are sound
/// (`validate` of `capnp_messages`), they are the same exactly if their values are equal.
///
/// Refusals: `AllocationFailed` if memory runs out, and `TooLong` if a line would have more than
/// 67,108,799 bytes, and then nothing is written; `WriteFailed` if the output fails. Takes memory for
/// two lines.
///
/// # Preconditions
///
/// ```text
/// requires left { IsSmall (S.segments left) }
/// requires right { IsSmall (T.segments right) }
/// requires works { W.has_failed output.old ≡ false }
/// ```
pub fn compare_messages<S: ReaderSegments, T: ReaderSegments, W: Output>(
    alloc: Global,
    limits: ReaderOptions,
    number: u64,
    left: S,
    right: T,
    output: &mut W,
) -> Result<bool, CompareFault> {
    let left = ReaderArenaImpl::new(left, limits);
    let right = ReaderArenaImpl::new(right, limits);
    let found = find_difference(alloc, limits, &left, &right)?;
    match found {
        None => Ok(true),
        Some(difference) => {
            let text = make_difference_text(alloc, limits, number, difference, &left, &right)?;
            text.write(output, CompareFault::WriteFailed)?;
            Ok(false)
        }
    }
}

/// Where the lines of the two messages differ; `None` if they are equal.
fn find_difference<S: ReaderSegments, T: ReaderSegments>(
    alloc: Global,
    limits: ReaderOptions,
    left: &ReaderArenaImpl<S>,
    right: &ReaderArenaImpl<T>,
) -> Result<Option<Difference>, CompareFault> {
    let left = make_line(alloc, limits, left)?;
    let right = make_line(alloc, limits, right)?;
    Ok(compare_lines(left.text.bytes(), right.text.bytes()))
}

/// Where the two lines differ; `None` if they are equal. The object that differs may begin with the
/// first byte that differs if an object begins there in both lines.
fn compare_lines(left: &[u8], right: &[u8]) -> Option<Difference> {
    if left == right {
        return None;
    }
    let at = common_prefix_length(left, right);
    let latest = if begins_object(left, at) && begins_object(right, at) {
        at
    } else {
        at.saturating_sub(1)
    };
    Some(Difference { at, latest })
}

/// The number of bytes at the front that are the same in both.
fn common_prefix_length(left: &[u8], right: &[u8]) -> usize {
    let most = left.len().min(right.len());
    let mut at = 0;
    while at < most && left[at] == right[at] {
        at += 1;
    }
    at
}

/// Whether the byte at position `at` is one with which the text of an object begins: that of `null`,
/// or of an object of JSON.
fn begins_object(line: &[u8], at: usize) -> bool {
    matches!(line.get(at), Some(b'n' | b'{'))
}

/// The line of a message.
fn make_line<S: ReaderSegments>(
    alloc: Global,
    limits: ReaderOptions,
    arena: &ReaderArenaImpl<S>,
) -> Result<Json, CompareFault> {
    let lim = ReadLimiter::new(limits.traversal_limit_in_words);
    let mut json = Json::new(alloc, lim, false);
    match write_json(
        arena,
        0,
        0,
        &[],
        levels_left(limits.nesting_limit),
        &mut json,
    ) {
        Ok(()) => Ok(json),
        Err(Ended::Full) => Err(CompareFault::TooLong),
        Err(_) => Err(CompareFault::AllocationFailed),
    }
}

/// The line of a message up to the end of the object that `search` finds.
fn make_line_up_to<S: ReaderSegments>(
    alloc: Global,
    limits: ReaderOptions,
    search: Search,
    arena: &ReaderArenaImpl<S>,
) -> Result<Json, CompareFault> {
    let lim = ReadLimiter::new(limits.traversal_limit_in_words);
    let mut json = Json::new(alloc, lim, false);
    json.search = Some(search);
    match write_json(
        arena,
        0,
        0,
        &[],
        levels_left(limits.nesting_limit),
        &mut json,
    ) {
        Ok(()) | Err(Ended::Found) => Ok(json),
        Err(Ended::Full) => Err(CompareFault::TooLong),
        Err(Ended::NoMemory) => Err(CompareFault::AllocationFailed),
    }
}

/// Makes the text about a difference.
fn make_difference_text<S: ReaderSegments, T: ReaderSegments>(
    alloc: Global,
    limits: ReaderOptions,
    number: u64,
    difference: Difference,
    left: &ReaderArenaImpl<S>,
    right: &ReaderArenaImpl<T>,
) -> Result<Text, CompareFault> {
    let Difference { at, latest } = difference;
    let left = make_line_up_to(alloc, limits, Search::new(alloc, at, latest), left)?;
    let right = make_line_up_to(alloc, limits, Search::new(alloc, at, latest), right)?;
    difference_text(alloc, number, &left, &right)
}

/// The text about a difference. Each of its lines ends with the object that differs. A text that
/// would have more than `MOST_BYTES` bytes ends with a line that says so.
fn difference_text(
    alloc: Global,
    number: u64,
    left: &Json,
    right: &Json,
) -> Result<Text, CompareFault> {
    let mut text = Text::new(alloc);
    match push_difference(&mut text, number, left, right) {
        Ok(()) => Ok(text),
        Err(Ended::Full) => cut_text(text),
        Err(_) => Err(CompareFault::AllocationFailed),
    }
}

/// Ends a text that is full with a line that says so.
fn cut_text(mut text: Text) -> Result<Text, CompareFault> {
    match text.push_into_kept(CUT_LINE) {
        Ok(()) => Ok(text),
        Err(_) => Err(CompareFault::AllocationFailed),
    }
}

/// Adds the three lines about a difference.
fn push_difference(text: &mut Text, number: u64, left: &Json, right: &Json) -> Result<(), Ended> {
    text.push(b"message ")?;
    text.push_number(number)?;
    text.push(b": ")?;
    match &left.search {
        Some(search) => push_path(text, search.path.as_slice())?,
        None => push_path(text, &[])?,
    }
    text.push(b"\n<")?;
    push_found(text, left)?;
    text.push(b"\n>")?;
    push_found(text, right)?;
    text.push(b"\n")
}

/// Adds a space and the text of the object that was found.
fn push_found(text: &mut Text, line: &Json) -> Result<(), Ended> {
    let bytes = line.text.bytes();
    let start = match &line.search {
        Some(search) => search.start.min(bytes.len()),
        None => 0,
    };
    let found = &bytes[start..];
    let front = text_prefix(found);
    text.push(b" ")?;
    text.push(front)?;
    text.push(if front.len() < found.len() {
        b" .."
    } else {
        b""
    })
}
