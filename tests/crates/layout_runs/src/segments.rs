//! Builds a message of many segments, and requests the segments for output, while memory is scarce.

use capnp_proved::capnp_layout::arena::{
    BuilderArena, BuilderArenaImpl, HeapAllocator, ReaderArena, ReaderSegments,
};
use capnp_proved::capnp_layout::edit::{apply, Edit, Op, Step};
use capnp_proved::capnp_layout::error::ErrorKind;
use capnp_proved::capnp_layout::wire_pointer::ElementSize;
use capnp_proved::support::alloc::Global;
use std::hint::black_box;
use test_support::encode_hex;

/// Returns the line of output for a line of input: how many pointers of a list were set, how many
/// requests for memory were refused, what `output_outcome` returned, and the words of the message.
/// `held` bytes stay allocated until `get_segments_for_output` has returned.
pub fn answer(count: u32, held: usize) -> String {
    let held = black_box(vec![0u8; held]);
    let mut arena = BuilderArenaImpl::new(Global, HeapAllocator::new(Global, 1));
    let set = build_pointer_list(&mut arena, count, &mut [0; 8]);
    let answered = output_outcome(&arena);
    drop(held);
    let words = shown_words(&arena);
    format!("{set} {} {answered} {words}", arena.refused())
}

/// Makes a list of `count` pointers, and sets one after the other, until one is refused. Each
/// pointer leads to a copy of `data` with the pointer's index in the first eight bytes. Returns how
/// many pointers were set. Each object has a segment of its own.
pub fn build_pointer_list(
    arena: &mut BuilderArenaImpl<HeapAllocator>,
    count: u32,
    data: &mut [u8],
) -> u32 {
    if arena.allocate_segment(1).is_err() {
        return 0;
    }
    let _root = arena.allocate(0, 1);
    if !edit(arena, &[], Op::InitList(ElementSize::Pointer, count)) {
        return 0;
    }
    for index in 0..count {
        for (byte, digit) in data.iter_mut().zip(u64::from(index).to_le_bytes()) {
            *byte = digit;
        }
        if !edit(arena, &[Step::Element(index)], Op::SetData(data)) {
            return index;
        }
    }
    count
}

/// Applies an operation at the end of a path. Returns whether that succeeded.
fn edit(arena: &mut BuilderArenaImpl<HeapAllocator>, path: &[Step], op: Op<'_>) -> bool {
    apply(arena, &Edit { path, op }).is_ok()
}

/// Calls `get_segments_for_output`. Returns `ok` if the call returns the segments of the message,
/// `AllocationFailed` if it refuses with that name, and otherwise `other`.
fn output_outcome(arena: &BuilderArenaImpl<HeapAllocator>) -> &'static str {
    match arena.get_segments_for_output() {
        Ok(output) if have_same_segments(&output, arena) => "ok",
        Err(ErrorKind::AllocationFailed) => "AllocationFailed",
        _ => "other",
    }
}

/// The segments of a message, in order.
fn segments_of(arena: &BuilderArenaImpl<HeapAllocator>) -> impl Iterator<Item = &[u8]> {
    (0..).map_while(|id| arena.get_segment(id).ok())
}

/// Whether `found` has exactly the segments of `arena`.
pub fn have_same_segments<S: ReaderSegments>(
    found: &S,
    arena: &BuilderArenaImpl<HeapAllocator>,
) -> bool {
    (0..)
        .map_while(|id| found.get_segment(id))
        .eq(segments_of(arena))
}

/// The words of each segment in hex digits, separated by commas.
fn shown_words(arena: &BuilderArenaImpl<HeapAllocator>) -> String {
    let segments: Vec<String> = segments_of(arena).map(encode_hex).collect();
    segments.join(",")
}
