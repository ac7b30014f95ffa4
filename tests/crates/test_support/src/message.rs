//! Messages written as hex digits.

use capnp_proved::capnp_arena::arena::{
    Allocator, BuilderArena, BuilderArenaImpl, ReaderArena, ReaderArenaImpl, ReaderOptions,
    SegmentArray,
};
use capnp_proved::capnp_framing::devices::{MemoryInput, MemoryOutput};
use capnp_proved::capnp_framing::framing::{read, write, OwnedSegments};
use capnp_proved::support::alloc::Global;

/// Returns the bytes that `text` has as pairs of hex digits. Spaces between the pairs are ignored.
/// Returns `None` if the text has anything else.
pub fn decode_hex(text: &str) -> Option<Vec<u8>> {
    let mut bytes = Vec::with_capacity(text.len() / 2);
    for word in text.split(' ') {
        let (pairs, rest) = word.as_bytes().as_chunks();
        if !rest.is_empty() {
            return None;
        }
        for [high, low] in pairs {
            bytes.push(16 * digit_value(*high)? + digit_value(*low)?);
        }
    }
    Some(bytes)
}

fn digit_value(digit: u8) -> Option<u8> {
    let value = char::from(digit).to_digit(16)?;
    value.try_into().ok()
}

/// Returns the hex digits of `bytes`, in lower case.
pub fn encode_hex(bytes: &[u8]) -> String {
    let digit = |value: u8| char::from(b"0123456789abcdef"[usize::from(value)]);
    let pairs = bytes
        .iter()
        .map(|byte| [digit(byte >> 4), digit(byte & 15)]);
    pairs.flatten().collect()
}

/// Makes the arena of a message. `text` has the bytes of its segments in hex digits, as in
/// [`decode_hex`], with commas between segments; only whole words count.
///
/// # Panics
///
/// If the text has anything else, or more than 512 segments.
pub fn arena_from_hex(text: &str, options: ReaderOptions) -> ReaderArenaImpl<OwnedSegments> {
    let segments: Vec<Vec<u8>> = text
        .split(',')
        .map(|segment| decode_hex(segment).expect("hex digits"))
        .collect();
    let frame = frame_of(&segments);
    let read = read(Global, &mut MemoryInput::new(frame.bytes()), u64::MAX);
    let segments = read.expect("a frame").expect("a message");
    ReaderArenaImpl::new(segments, options)
}

/// Returns the frame of these segments.
fn frame_of(segments: &[Vec<u8>]) -> MemoryOutput {
    let lent: Vec<&[u8]> = segments.iter().map(Vec::as_slice).collect();
    let array = SegmentArray::new(&lent).expect("few enough segments");
    let mut frame = MemoryOutput::new(Global);
    write(&mut frame, &array).expect("a frame");
    frame
}

/// Makes an arena with one segment, in which one word is allocated, for the root pointer.
///
/// # Panics
///
/// If `allocator` refuses the memory.
pub fn arena_with_root<A: Allocator>(allocator: A) -> BuilderArenaImpl<A> {
    let mut arena = BuilderArenaImpl::new(Global, allocator);
    arena.allocate_segment(1).expect("a segment");
    arena.allocate(0, 1).expect("a word");
    arena
}

/// Whether the segments of `arena` are exactly those in `want`: hex digits, as in [`decode_hex`],
/// with `, ` between segments. Returns `false` if `want` has anything else.
pub fn has_words(arena: &impl ReaderArena, want: &str) -> bool {
    let mut id = 0;
    for text in want.split(", ") {
        let Some(words) = decode_hex(text) else {
            return false;
        };
        if arena.get_segment(id) != Ok(&words) {
            return false;
        }
        id += 1;
    }
    arena.get_segment(id).is_err()
}
