//! Makes what a line of standard input asks for: a run of the tool, or a message of many segments.

use crate::{frames, segments};
use capnp_proved::capnp_arena::arena::{Allocator, HeapAllocator};
use capnp_proved::capnp_layout::tool::{self, Args, Outcome};
use capnp_proved::support::alloc::Global;
use std::cell::Cell;
use test_support::{
    parse_limit, split_arguments, Granted, Strain, StrainedInput, StrainedOutput, TestAllocator,
};

/// What a line of input asks for.
enum Asked<'l> {
    /// A run of the tool.
    Run(Run<'l>),
    /// A message with a list of `count` pointers, while `held` bytes stay allocated.
    Segments { count: u32, held: usize },
    /// A message with a list of `count` pointers to `size` bytes of data each, written as a frame,
    /// while `held` bytes stay allocated.
    Framed {
        count: u32,
        size: usize,
        held: usize,
    },
}

/// A run of the tool.
struct Run<'l> {
    args: Args,
    /// How many reads succeed; each reads one byte.
    reads: Strain,
    /// How many writes succeed; each writes one byte.
    writes: Strain,
    /// How many requests for memory are granted.
    requests: u64,
    /// The lines of the input, separated by commas.
    input: &'l str,
}

/// Returns the line of output for a line of input: `malformed` if that doesn't have the right form.
pub fn answer(line: &str) -> String {
    match parse_line(line) {
        Some(Asked::Run(run)) => run_once(&run),
        Some(Asked::Segments { count, held }) => segments::answer(count, held),
        Some(Asked::Framed { count, size, held }) => frames::answer(count, size, held),
        None => "malformed".to_owned(),
    }
}

/// Parses a line of input; `None` if it doesn't have the right form.
fn parse_line(line: &str) -> Option<Asked<'_>> {
    let words: Vec<&str> = line.split(' ').collect();
    Some(match words[..] {
        ["segments", count, held] => Asked::Segments {
            count: count.parse().ok()?,
            held: held.parse().ok()?,
        },
        ["framed", count, size, held] => Asked::Framed {
            count: count.parse().ok()?,
            size: size.parse().ok()?,
            held: held.parse().ok()?,
        },
        [args, reads, writes, requests, input] => Asked::Run(Run {
            args: tool::parse_args(&split_arguments(args))?,
            reads: one_byte_strain(parse_limit(reads)?),
            writes: one_byte_strain(parse_limit(writes)?),
            requests: parse_limit(requests)?,
            input,
        }),
        _ => return None,
    })
}

/// Returns the `Strain` of a device whose first `calls` calls succeed, and move one byte each.
fn one_byte_strain(calls: u64) -> Strain {
    Strain { calls, most: 1 }
}

/// Returns the input that `text` describes: the lines between its commas, each followed by a line
/// feed. If `text` is `-`, there are no lines.
fn make_input(text: &str) -> String {
    if text == "-" {
        return String::new();
    }
    text.replace(',', "\n") + "\n"
}

/// Makes a run. Returns how it ended, how many requests for memory were refused, and what was
/// written.
fn run_once(run: &Run<'_>) -> String {
    let lines = make_input(run.input);
    let returned = Cell::new(0);
    let heap = HeapAllocator::new(Global, 0);
    let allocator = TestAllocator::new(heap, Granted::Requests(run.requests), &returned);
    let mut input = StrainedInput::new(lines.as_bytes(), run.reads);
    let mut output = StrainedOutput::new(run.writes);
    let (outcome, allocator) =
        tool::run_with(Global, allocator, &run.args, &mut input, &mut output);
    let ends = match outcome {
        Outcome::Done => "done",
        Outcome::Refused => "refused",
        Outcome::BadInput => "bad_input",
        Outcome::WriteFailed => "write_failed",
    };
    let written = shown(&output.bytes);
    format!("{ends} {} {written}", allocator.refused())
}

/// What was written, with `/` for a line feed; `-` if nothing was written.
fn shown(written: &[u8]) -> String {
    if written.is_empty() {
        return "-".to_owned();
    }
    let letters = written.iter().copied().map(char::from);
    letters
        .map(|letter| if letter == '\n' { '/' } else { letter })
        .collect()
}
