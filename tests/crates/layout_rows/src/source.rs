//! Another message, to copy from.

use crate::parse::{self, Fault};
use capnp_proved::capnp_arena::arena::ReaderOptions;

/// Another message as three arguments of a call.
#[derive(Clone, Copy)]
pub struct SourceText<'a> {
    /// The segments of the message in hex digits, separated by slashes.
    pub segments: &'a str,
    /// The traversal limit and the nesting limit for reading the message.
    pub options: ReaderOptions,
}

impl SourceText<'_> {
    /// Parses the segments, and returns the bytes of each.
    pub fn parse_segments(&self) -> Result<Vec<Vec<u8>>, Fault> {
        parse::segments(self.segments, '/', ".")
    }
}

/// Whether a text is segments separated by slashes, each in hex digits, or `.` or `-`.
pub fn are_segments(text: &str) -> bool {
    text.split('/')
        .all(|part| part == "." || parse::is_hex(part))
}
