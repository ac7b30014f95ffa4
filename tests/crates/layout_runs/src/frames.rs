//! Builds a message of many segments, writes it as a frame, reads that frame, and makes a canonical
//! copy of what was read, while memory is scarce.

use crate::segments::{build_pointer_list, have_same_segments};
use capnp_proved::capnp_layout::arena::{
    BuilderArena, BuilderArenaImpl, HeapAllocator, ReaderArenaImpl, ReaderOptions, ReaderSegments,
};
use capnp_proved::capnp_layout::devices::{MemoryInput, MemoryOutput};
use capnp_proved::capnp_layout::framing::{
    read, read_from_flat_slice, write, write_canonical, OwnedSegments,
};
use capnp_proved::capnp_layout::read_limiter::ReadLimiter;
use capnp_proved::capnp_layout::readers::PointerReader;
use capnp_proved::support::alloc::Global;
use std::hint::black_box;
use test_support::encode_hex;

/// The traversal limit in words, and the most words that a frame may have.
const BUDGET: usize = 1 << 23;

/// The outcome of a step that was made as it should be, and of one that wasn't tried.
const OK: &str = "ok";
const UNTRIED: &str = "-";

/// Returns the line of output for a line of input. It starts with the number of pointers of a list
/// that were set, each to `size` bytes, and the number of requests for memory that were refused.
/// Then come the outcomes of writing the frame, of reading the frame in place, of reading it from
/// an input, and of making the canonical copy. At the end are the number of words left of the
/// traversal limit, and the frames of the message and of the copy. `held` bytes stay allocated
/// until all of this is done.
pub fn answer(count: u32, size: usize, held: usize) -> String {
    let held = black_box(vec![0u8; held]);
    let mut arena = BuilderArenaImpl::new(Global, HeapAllocator::new(Global, 1));
    let set = build_pointer_list(&mut arena, count, &mut vec![0; size]);
    let refused = arena.refused();
    let mut frame = MemoryOutput::new(Global);
    let mut copy = MemoryOutput::new(Global);
    let mut limiter = ReadLimiter::new(Some(BUDGET));
    let outcomes = run_steps(&arena, &mut limiter, &mut frame, &mut copy).join(" ");
    drop(arena);
    drop(held);
    let left = limiter.left().unwrap_or(0);
    let (frame, copy) = (encode_hex(frame.bytes()), encode_hex(copy.bytes()));
    format!("{set} {refused} {outcomes} {left} -{frame} -{copy}")
}

/// Writes the message in `arena` as a frame, reads that frame in place, reads it from an input, and
/// makes a canonical copy of what the input held. Returns the outcome of each of these four steps.
fn run_steps(
    arena: &BuilderArenaImpl<HeapAllocator>,
    limiter: &mut ReadLimiter,
    frame: &mut MemoryOutput,
    copy: &mut MemoryOutput,
) -> [&'static str; 4] {
    let written = write_frame(arena, frame);
    if written != OK {
        return [written, UNTRIED, UNTRIED, UNTRIED];
    }
    let flat = read_in_place(arena, frame.bytes());
    let (read, copied) = read_and_copy(arena, frame.bytes(), limiter, copy);
    [written, flat, read, copied]
}

/// Writes the message in `arena` as a frame. Returns `ok`, or the name of the refusal.
fn write_frame(arena: &BuilderArenaImpl<HeapAllocator>, to: &mut MemoryOutput) -> &'static str {
    match arena.get_segments_for_output() {
        Ok(output) => write(to, &output).map_or_else(|error| error.name(), |()| OK),
        Err(kind) => kind.name(),
    }
}

/// Reads `frame` in place. Returns `ok`; `other` if its segments aren't those of the message in
/// `arena`; `none` if `frame` is empty; or the name of the refusal.
fn read_in_place(arena: &BuilderArenaImpl<HeapAllocator>, frame: &[u8]) -> &'static str {
    match read_from_flat_slice(frame, BUDGET as u64) {
        Ok(Some(found)) => compare_segments(&found, arena),
        Ok(None) => "none",
        Err(error) => error.name(),
    }
}

/// Reads `frame` from an input, and makes a canonical copy of what was read. Returns the outcome of
/// both: of reading like `read_in_place`, and of copying like `write_canonical_copy`, or `-` if
/// nothing was read.
fn read_and_copy(
    arena: &BuilderArenaImpl<HeapAllocator>,
    frame: &[u8],
    limiter: &mut ReadLimiter,
    copy: &mut MemoryOutput,
) -> (&'static str, &'static str) {
    match read(Global, &mut MemoryInput::new(frame), BUDGET as u64) {
        Ok(Some(found)) => {
            let same = compare_segments(&found, arena);
            (same, write_canonical_copy(found, limiter, copy))
        }
        Ok(None) => ("none", UNTRIED),
        Err(error) => (error.name(), UNTRIED),
    }
}

/// Returns `ok` if `found` has the segments of the message in `arena`, otherwise `other`.
fn compare_segments<S: ReaderSegments>(
    found: &S,
    arena: &BuilderArenaImpl<HeapAllocator>,
) -> &'static str {
    if have_same_segments(found, arena) {
        OK
    } else {
        "other"
    }
}

/// Writes a canonical copy of the message in `segments` as a frame. Returns `ok`, or the name of
/// the refusal.
fn write_canonical_copy(
    segments: OwnedSegments,
    limiter: &mut ReadLimiter,
    to: &mut MemoryOutput,
) -> &'static str {
    let source = ReaderArenaImpl::new(segments, ReaderOptions::default());
    match PointerReader::get_root_from_arena(&source, limiter) {
        Ok(root) => {
            write_canonical(Global, to, root, limiter).map_or_else(|error| error.name(), |()| OK)
        }
        Err(kind) => kind.name(),
    }
}
