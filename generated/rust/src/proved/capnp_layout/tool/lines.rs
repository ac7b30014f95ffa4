//! Reads the lines of the program's input. Each line is a segment, in pairs of hex digits.

use crate::proved::capnp_arena::arena::{Allocator, ReaderSegments};
use crate::proved::support::alloc::Global;
use crate::proved::support::vec::Vec;

/// Why no message could be read.
#[derive(Clone, Copy, PartialEq, Eq)]
pub enum InputFault {
    /// A line isn't pairs of hex digits, or the input failed.
    BadInput,
    /// Memory ran out for the bytes that were read.
    NoMemory,
}

/// The segments of a message that was read.
pub struct Message {
    segments: Vec<Vec<u8>>,
}

impl Message {
    /// Whether the message is small enough for readers: it has fewer than 2^32 segments, each of
    /// fewer than 2^32 words.
    pub fn is_small(&self) -> bool {
        self.segments.len() < 0x1_0000_0000 && are_small(self.segments.as_slice())
    }
}

/// Whether each segment has fewer than 2^32 words.
fn are_small(segments: &[Vec<u8>]) -> bool {
    segments
        .iter()
        .all(|segment| segment.len() / 8 < 0x1_0000_0000)
}

impl ReaderSegments for Message {
    fn get_segment(&self, id: u32) -> Option<&[u8]> {
        match self.segments.get(id as usize) {
            Some(segment) => Some(segment.as_slice()),
            None => None,
        }
    }

    fn len(&self) -> usize {
        self.segments.len()
    }

    fn is_empty(&self) -> bool {
        self.segments.is_empty()
    }
}

/// Appends `bytes` to `list`. Stops with `NoMemory` if `allocator` refuses memory for a byte; the
/// bytes before that one are then in `list`.
pub(in crate::proved::capnp_layout) fn append_bytes<A: Allocator>(
    allocator: &mut A,
    list: &mut Vec<u8>,
    bytes: &[u8],
) -> Result<(), InputFault> {
    for byte in bytes {
        if allocator.keep(list, *byte).is_some() {
            return Err(InputFault::NoMemory);
        }
    }
    Ok(())
}

/// Returns the position of the first line feed of `text`; `None` if there is none.
fn find_line_feed(text: &[u8]) -> Option<usize> {
    text.iter().position(|byte| *byte == b'\n')
}

/// Returns the end of the first line: the position of the first line feed, or the end of `text` if
/// there is none.
fn line_end(text: &[u8]) -> usize {
    match find_line_feed(text) {
        Some(n) => n,
        None => text.len(),
    }
}

/// Returns the first line of `text`, without its line feed, and what follows the line feed.
/// Precondition: `text` isn't empty.
///
/// # Preconditions
///
/// ```text
/// requires { 0 < length text.now }
/// ```
fn split_first_line(text: &[u8]) -> (&[u8], &[u8]) {
    let n = line_end(text);
    if n < text.len() {
        (&text[..n], &text[n + 1..])
    } else {
        (text, &[])
    }
}

/// Returns the bytes that a line of hex digits encodes. Refusals: `BadInput` if the line isn't
/// pairs of hex digits; `NoMemory` if `allocator` refuses memory for a byte.
fn decode_line<A: Allocator>(
    alloc: Global,
    allocator: &mut A,
    line: &[u8],
) -> Result<Vec<u8>, InputFault> {
    let mut bytes = Vec::new(alloc);
    for _ in 0..line.len() / 2 {
        if allocator.keep(&mut bytes, 0u8).is_some() {
            return Err(InputFault::NoMemory);
        }
    }
    match crate::proved::support::hex::decode_to_slice(line, bytes.as_mut_slice()) {
        Ok(()) => Ok(bytes),
        Err(_) => Err(InputFault::BadInput),
    }
}

/// Returns the segments that `text` encodes, one for each line. Refuses with `BadInput` if a line
/// isn't pairs of hex digits, or with `NoMemory` if `allocator` refuses memory.
pub fn decode_lines<A: Allocator>(
    alloc: Global,
    allocator: &mut A,
    text: &[u8],
) -> Result<Message, InputFault> {
    let mut segments = Vec::new(alloc);
    let mut rest = text;
    while !rest.is_empty() {
        let (line, behind) = split_first_line(rest);
        let segment = decode_line(alloc, allocator, line)?;
        if allocator.keep(&mut segments, segment).is_some() {
            return Err(InputFault::NoMemory);
        }
        rest = behind;
    }
    Ok(Message { segments })
}
