//! The arguments after the program's name. Titles in quotes are sections of the encoding
//! specification.

use crate::proved::capnp_arena::arena::ReaderOptions;
use crate::proved::capnp_messages::text::{parse_nesting_limit, parse_traversal_limit};
use crate::proved::support::string::String;

/// What the program has to do.
#[derive(Clone, Copy)]
pub enum Args {
    /// Write the canonical words of a message ("Canonicalization"), read within these limits.
    Canon(ReaderOptions),
    /// Test whether a message is in canonical form at its root ("Canonicalization"), within these
    /// limits.
    Check(ReaderOptions),
    /// Count the words and capabilities of a message, without landing pads ("Structs", "Lists"),
    /// within these limits.
    Size(ReaderOptions),
    /// Write the frame of a message ("Serialization Over a Stream").
    Frame,
    /// Write the segments of the message in the frame at the start of a line ("Serialization Over a
    /// Stream").
    Unframe,
    /// Write the frame of a message's canonical words, in one segment ("Canonicalization"), reading
    /// the message within these limits.
    FramedCanon(ReaderOptions),
    /// Test whether the message in the frame at the start of a line is canonical as a whole
    /// ("Canonicalization"), within these limits.
    FramedCheck(ReaderOptions),
}

/// Parses the arguments after the program's name: `frame`, `unframe`, or `canon NESTING BUDGET`,
/// where `check`, `size`, `framed-canon` or `framed-check` can replace `canon`. Returns `None` for
/// anything else.
///
/// NESTING is the nesting limit, an `i32` in decimal digits with an optional `-`. BUDGET is the
/// traversal limit in words, a `u64` in decimal digits, or `none`.
pub fn parse_args(args: &[String]) -> Option<Args> {
    match args {
        [command] => command_without_limits(command.as_str()),
        [command, nesting, budget] => {
            let options = ReaderOptions {
                nesting_limit: parse_nesting_limit(nesting.as_str())?,
                traversal_limit_in_words: parse_traversal_limit(budget.as_str())?,
            };
            command_with_limits(command.as_str(), options)
        }
        _ => None,
    }
}

/// Returns what a command without limits asks for; `None` if there is no such command.
fn command_without_limits(command: &str) -> Option<Args> {
    if command == "frame" {
        Some(Args::Frame)
    } else if command == "unframe" {
        Some(Args::Unframe)
    } else {
        None
    }
}

/// Returns what a command with limits asks for; `None` if there is no such command.
fn command_with_limits(command: &str, options: ReaderOptions) -> Option<Args> {
    if command == "canon" {
        Some(Args::Canon(options))
    } else if command == "check" {
        Some(Args::Check(options))
    } else if command == "size" {
        Some(Args::Size(options))
    } else if command == "framed-canon" {
        Some(Args::FramedCanon(options))
    } else if command == "framed-check" {
        Some(Args::FramedCheck(options))
    } else {
        None
    }
}
