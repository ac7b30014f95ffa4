//! Guesses from an input's first bytes what the input is. If the input's first message can't be
//! answered, the user is told the guess.

use crate::proved::capnp_framing::devices::{Input, MemoryInput};
use crate::proved::capnp_framing::framing::FrameError;
use crate::proved::capnp_packing::packing::UnpackingInput;
use crate::proved::capnp_streams::streams::{InputForm, StreamError};
use crate::proved::capnp_words::error::ErrorKind;
use crate::proved::capnp_words::wire_pointer::{
    data_bits_per_element, ElementSize, WirePointer, WirePointerKind,
};
use crate::proved::capnp_words::words::word_at;

/// The largest number of segments that a frame may have.
const MOST_SEGMENTS: u32 = 512;

/// What an input looks like.
#[derive(Clone, Copy, Debug, PartialEq, Eq)]
pub enum Guess {
    Gzip,
    Zstd,
    Bzip2,
    Xz,
    Zip,
    /// ASCII text.
    Text,
    /// A stream of frames.
    Frames,
    /// A packed stream of frames (encoding specification, "Packing").
    PackedFrames,
    /// The raw words of one message: the words of its only segment, without a frame's table.
    RawWords,
}

impl Guess {
    /// Returns a text with the name of this kind of input. If an option of `capnp_canon` reads such
    /// an input, the text also has this option.
    pub fn text(&self) -> &'static str {
        match self {
            Guess::Gzip => "gzip",
            Guess::Zstd => "zstd",
            Guess::Bzip2 => "bzip2",
            Guess::Xz => "xz",
            Guess::Zip => "a zip archive",
            Guess::Text => "text",
            Guess::Frames => "frames that are neither packed nor raw words",
            Guess::PackedFrames => "packed messages, which --packed reads",
            Guess::RawWords => "raw words, which --from-flat reads",
        }
    }
}

/// Guesses what an input is, after a run that reads it in this `form` has refused its first message
/// with `fault`. Returns `None` if `fault` says nothing about the input, or if the input looks like
/// what it is read as, or like nothing known. `first` has the first bytes of the input; the input
/// has at least `given` bytes.
pub fn guess_input(form: InputForm, fault: StreamError, first: &[u8], given: u64) -> Option<Guess> {
    if says_nothing_about_input(fault) {
        return None;
    }
    let known = guess_by_signature(first);
    if known.is_some() {
        return known;
    }
    match form {
        InputForm::PackedFrames => guess_instead_of_packed_frames(first),
        InputForm::RawWords => guess_instead_of_raw_words(first),
        InputForm::Frames => match fault {
            StreamError::Frame(_) => guess_instead_of_frames(first, given),
            _ => None,
        },
    }
}

/// Whether `fault` says nothing about the input: memory ran out, a device failed, or there are too
/// many messages.
fn says_nothing_about_input(fault: StreamError) -> bool {
    match fault {
        StreamError::Frame(error) => matches!(
            error,
            FrameError::ReadFailed | FrameError::WriteFailed | FrameError::AllocationFailed
        ),
        StreamError::Layout(kind, _) => matches!(kind, ErrorKind::AllocationFailed),
        StreamError::TooManyMessages => true,
    }
}

/// Returns the kind of an input that begins with `first`, if it is a compressed file, an archive or
/// text, which no task reads.
fn guess_by_signature(first: &[u8]) -> Option<Guess> {
    match first {
        [0x1f, 0x8b, ..] => Some(Guess::Gzip),
        [0x28, 0xb5, 0x2f, 0xfd, ..] => Some(Guess::Zstd),
        [b'B', b'Z', b'h', ..] => Some(Guess::Bzip2),
        [0xfd, b'7', b'z', b'X', ..] => Some(Guess::Xz),
        [b'P', b'K', 3, 4, ..] => Some(Guess::Zip),
        [_, _, _, _, ..] if first.iter().all(|byte| is_text_byte(*byte)) => Some(Guess::Text),
        _ => None,
    }
}

/// Whether the byte is a printable ASCII character, a tab, a carriage return or a line feed.
fn is_text_byte(byte: u8) -> bool {
    matches!(byte, b'\t' | b'\n' | b'\r' | b' '..=b'~')
}

/// Guesses what an input is that should be frames, but can't be read as frames. Returns `None` if
/// there is no guess, or if a frame may begin with `first`: then this frame may be cut short, or
/// longer than the limit.
fn guess_instead_of_frames(first: &[u8], given: u64) -> Option<Guess> {
    if may_begin_frame(first) {
        return None;
    }
    if begins_with_packed_frame(first) {
        return Some(Guess::PackedFrames);
    }
    if leads_within(checked_word_at(first, 0)?, given / 8) {
        return Some(Guess::RawWords);
    }
    None
}

/// Guesses what an input is that should be packed frames, but can't be read as such. Returns `None`
/// if there is no guess.
fn guess_instead_of_packed_frames(first: &[u8]) -> Option<Guess> {
    if begins_with_frame(first) && !may_begin_packed_frame(first) {
        return Some(Guess::Frames);
    }
    None
}

/// Guesses what an input is that should be raw words, but can't be read as such. Returns `None` if
/// there is no guess.
fn guess_instead_of_raw_words(first: &[u8]) -> Option<Guess> {
    if begins_with_frame(first) {
        return Some(Guess::Frames);
    }
    if !may_begin_frame(first) && begins_with_packed_frame(first) {
        return Some(Guess::PackedFrames);
    }
    None
}

/// Whether `first` looks like the beginning of a packed stream of frames.
fn begins_with_packed_frame(first: &[u8]) -> bool {
    let mut unpacked = [0; 32];
    let count = unpack(first, &mut unpacked);
    begins_with_frame(&unpacked[..count])
}

/// Whether a packed stream of frames may begin with `first`.
fn may_begin_packed_frame(first: &[u8]) -> bool {
    let mut unpacked = [0; 32];
    let count = unpack(first, &mut unpacked);
    may_begin_frame(&unpacked[..count])
}

/// Unpacks `first` to `unpacked`, as far as there is room, and returns the number of unpacked
/// bytes; 0 if unpacking fails.
fn unpack(first: &[u8], unpacked: &mut [u8; 32]) -> usize {
    let mut input = UnpackingInput::new(MemoryInput::new(first));
    match input.read(unpacked) {
        Ok(count) => count,
        Err(_) => 0,
    }
}

/// Whether `bytes` have the table of a frame and its root pointer, and this pointer is plausible:
/// it leads to a struct in the first segment, or to a landing pad in one of several segments; or it
/// is null and the first segment's only word.
fn begins_with_frame(bytes: &[u8]) -> bool {
    let Some((segments, words)) = read_frame_table(bytes) else {
        return false;
    };
    let Some(root) = root_word(bytes, segments) else {
        return false;
    };
    let pointer = WirePointer(root);
    match pointer.kind() {
        WirePointerKind::Struct if pointer.is_null() => words == 1,
        WirePointerKind::Struct => 0 < pointer.struct_word_size() && leads_within(root, words),
        WirePointerKind::Far => 1 < segments && u64::from(pointer.far_segment_id()) < segments,
        WirePointerKind::List | WirePointerKind::Other => false,
    }
}

/// Whether a frame may begin with `bytes`. Returns `false` if `bytes` show that there are more
/// segments than a frame may have, or that the first segment has no words, or that the root pointer
/// leads nowhere.
fn may_begin_frame(bytes: &[u8]) -> bool {
    if let [a, b, c, d, ..] = bytes {
        if MOST_SEGMENTS <= u32::from_le_bytes([*a, *b, *c, *d]) {
            return false;
        }
    }
    let Some((segments, words)) = read_frame_table(bytes) else {
        return true;
    };
    if words == 0 {
        return false;
    }
    let Some(root) = root_word(bytes, segments) else {
        return true;
    };
    let pointer = WirePointer(root);
    match pointer.kind() {
        WirePointerKind::Struct if pointer.is_null() => true,
        WirePointerKind::Struct | WirePointerKind::List => leads_within(root, words),
        WirePointerKind::Far => u64::from(pointer.far_segment_id()) < segments,
        WirePointerKind::Other => pointer.is_capability(),
    }
}

/// Reads `bytes` as the start of a frame's table: returns the number of segments and the number of
/// words in the first segment. Returns `None` if there are fewer than 8 bytes.
fn read_frame_table(bytes: &[u8]) -> Option<(u64, u64)> {
    let numbers = checked_word_at(bytes, 0)?;
    Some(((numbers & 0xffff_ffff) + 1, numbers >> 32))
}

/// The first word after a frame's table for `segments` segments, if `bytes` have this whole word.
/// The table holds the number of segments and the size of each segment, two numbers in each word.
///
/// # Preconditions
///
/// ```text
/// requires { segments < 2 ^ 33 }
/// ```
fn root_word(bytes: &[u8], segments: u64) -> Option<u64> {
    checked_word_at(bytes, segments / 2 + 1)
}

/// Returns word `at` of `bytes`; `None` if `bytes` don't have this whole word.
fn checked_word_at(bytes: &[u8], at: u64) -> Option<u64> {
    if at < bytes.len() as u64 / 8 {
        Some(word_at(bytes, at as usize))
    } else {
        None
    }
}

/// Whether `word`, the first of `words` words, is a pointer to a struct or a list that ends inside
/// these words.
fn leads_within(word: u64, words: u64) -> bool {
    let pointer = WirePointer(word);
    match (
        object_words(pointer),
        pointer.target(0, clamp_to_u32(words)),
    ) {
        (Some(claimed), Some(start)) => u64::from(start) + claimed <= words,
        _ => false,
    }
}

/// Returns `words`, or `u32::MAX` if `words` is larger.
fn clamp_to_u32(words: u64) -> u32 {
    words.min(u64::from(u32::MAX)) as u32
}

/// Returns the number of words of the struct or list that the pointer leads to; `None` for any
/// other pointer.
fn object_words(pointer: WirePointer) -> Option<u64> {
    match pointer.kind() {
        WirePointerKind::Struct => Some(u64::from(pointer.struct_word_size())),
        WirePointerKind::List => Some(list_words(pointer)),
        WirePointerKind::Far | WirePointerKind::Other => None,
    }
}

/// The number of words that the pointer's list takes, with its tag.
fn list_words(pointer: WirePointer) -> u64 {
    let count = u64::from(pointer.list_element_count());
    let bits = match pointer.list_element_size() {
        ElementSize::InlineComposite => return count + 1,
        ElementSize::Pointer => 64,
        size => u64::from(data_bits_per_element(size)),
    };
    count.saturating_mul(bits).div_ceil(64)
}
