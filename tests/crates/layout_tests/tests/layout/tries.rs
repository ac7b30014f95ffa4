//! Tests what a run of the engine requests from its allocator: memory to keep the input, in rows
//! (`Request::Row`), and for each try to make a canonical copy a segment, and a row in which the
//! arena keeps this segment.

use capnp_proved::capnp_layout::arena::{HeapAllocator, ReaderOptions};
use capnp_proved::capnp_layout::devices::{MemoryInput, MemoryOutput};
use capnp_proved::capnp_layout::tool::{run_with, Args, Outcome};
use capnp_proved::support::alloc::Global;
use test_support::{NotingAllocator, Request};

/// A message of one word, a null pointer, whose canonical copy has one word as well.
const NULL: &str = "0000000000000000\n";

/// A message of eight words, whose canonical copy has 23: three structs of two pointers each. Both
/// pointers of a struct lead to the next struct, and both of the last one to a struct with the
/// number 9.
const DOUBLED: &str = "0000000000000200040000000000020000000000000002000400000000000200\
    0000000000000200040000000100000000000000010000000900000000000000\n";

/// A message of one word, a pointer to a struct that would be after the end of the segment.
const BEYOND: &str = "0000000001000000\n";

/// Runs the engine. Returns its outcome, and its last `tries` requests. Checks that all requests
/// before these are for rows, which keep the input.
fn run(args: Args, message: &str, tries: usize) -> (Outcome, Vec<Request>) {
    let allocator = NotingAllocator::new(HeapAllocator::new(Global, 0));
    let mut from = MemoryInput::new(message.as_bytes());
    let mut to = MemoryOutput::new(Global);
    let (outcome, allocator) = run_with(Global, allocator, &args, &mut from, &mut to);
    let requests = allocator.requests();
    let (rows, tries) = requests.split_at(requests.len().saturating_sub(tries));
    assert!(rows.iter().all(|request| *request == Request::Row));
    (outcome, tries.to_vec())
}

/// The first try requests a segment with one word more than the input has, and a second one, if
/// that is too small, a segment with as many words as the copy has. No other segment is requested;
/// so `Check`, `Size` and `Frame` request none. If the message can't be read, there is only the
/// first try, also if this was too small before reading came to the fault.
#[test]
fn the_second_try_fits() {
    let options = ReaderOptions::default();
    let scarce = ReaderOptions {
        traversal_limit_in_words: Some(22),
        ..options
    };
    // The last column is the number of words that each try requests for its segment.
    for (args, message, end, rooms) in [
        (Args::Canon(options), NULL, Outcome::Done, [2].as_slice()),
        (Args::Canon(options), DOUBLED, Outcome::Done, &[9, 23]),
        (Args::Check(options), DOUBLED, Outcome::Done, &[]),
        (Args::Size(options), DOUBLED, Outcome::Done, &[]),
        (Args::Frame, DOUBLED, Outcome::Done, &[]),
        (Args::FramedCanon(options), DOUBLED, Outcome::Done, &[9, 23]),
        (Args::Canon(scarce), DOUBLED, Outcome::Refused, &[9]),
        (Args::Canon(options), BEYOND, Outcome::Refused, &[2]),
        (Args::FramedCanon(options), BEYOND, Outcome::Refused, &[2]),
    ] {
        let want: Vec<_> = rooms
            .iter()
            .flat_map(|room| [Request::Segment(*room), Request::Row])
            .collect();
        assert_eq!(run(args, message, want.len()), (end, want));
    }
}
