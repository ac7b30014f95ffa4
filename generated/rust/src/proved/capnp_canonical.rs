//! Canonical form (encoding specification, "Canonicalization") for C, and for languages that call
//! C. Copies, tests, measures and hashes a message that is given as a frame in a buffer, as
//! segments, or as the words of its only segment. Also unpacks packed bytes. Keeps no state between
//! calls.
//!
//! `bindings/c/capnp_canonical.h` says how to call each function. A function returns 0 if it
//! succeeded, otherwise the number of a refusal. The functions for names, texts and versions are
//! never refused; they return a length or the version.

mod calls;
mod digests;
mod equal_exports;
mod fault;
mod frames;
mod locating;
mod names;
mod packed;
mod packing;
mod part_exports;
mod parts;
mod prefix_exports;
mod refusal;
mod segment_exports;
mod segments;
mod storing;
mod taking;
mod texts;
mod validation;
mod walk_exports;
mod word_exports;
mod words;

use crate::proved::capnp_messages::messages::Form;
use crate::proved::capnp_packing::packing::Place;
use crate::proved::support::alloc::Global;
use calls::Limits;
use digests::digest_frame_after;
use fault::{Fault, NO_FAULT};
use frames::{check_frame, copy_frame, frame_size, frame_size_from_prefix, size_frame};
use locating::{locate_in_frame, BrokenPointer, NO_POINTER};
use names::{name_of_number, put_text, text_of_reason};
use packed::{unpack, unpack_further, Unpacking};
use packing::pack;
use storing::{store, store_size, store_written};
use texts::text_of_answer;
use validation::{validate_frame, SoundMessage, NOT_SOUND};

/// Makes a canonical copy of the message whose frame is at the front of `frame`, writes the copy to
/// the front of `to`, as a frame of one segment, and stores the number of bytes written in
/// `written`. `nesting` and `words` limit the reading, as in `capnp_canonical_check`.
///
/// If `to` is too small, stores the number of bytes needed in `written`; for any other refusal, 0.
/// The bytes of `to` after the copy are unchanged. If the call is refused, all bytes of `to` are
/// unchanged.
pub fn capnp_canonical_copy(
    alloc: Global,
    frame: &[u8],
    nesting: i32,
    words: u64,
    to: &mut [u8],
    written: &mut usize,
) -> u32 {
    let copied = copy_frame(alloc, Form::Framed, frame, Limits { nesting, words }, to);
    store_written(copied, written)
}

/// Like `capnp_canonical_copy`, but writes the canonical words without a frame.
pub fn capnp_canonical_copy_flat(
    alloc: Global,
    frame: &[u8],
    nesting: i32,
    words: u64,
    to: &mut [u8],
    written: &mut usize,
) -> u32 {
    let copied = copy_frame(alloc, Form::Flat, frame, Limits { nesting, words }, to);
    store_written(copied, written)
}

/// Tests whether the message whose frame is at the front of `frame` is canonical: whether it has
/// one segment, which holds the canonical words of a value and nothing else. If it isn't canonical,
/// stores why and where in `fault`.
///
/// `nesting` is how many structs and lists may be inside one another. `words` limits both the words
/// of the frame and the words that may be read. After a refusal `is_canonical` is false and `fault`
/// all 0. So only if the call returned 0 does `false` say that the message isn't canonical.
pub fn capnp_canonical_check(
    frame: &[u8],
    nesting: i32,
    words: u64,
    is_canonical: &mut bool,
    fault: &mut Fault,
) -> u32 {
    match check_frame(frame, Limits { nesting, words }) {
        Ok(found) => {
            *is_canonical = found.is_none();
            *fault = Fault::of(found);
            0
        }
        Err(refusal) => {
            *is_canonical = false;
            *fault = NO_FAULT;
            refusal.number()
        }
    }
}

/// Counts the words and capabilities of the message whose frame is at the front of `frame`, without
/// the root pointer and landing pads. Stores the numbers in `word_count` and `cap_count`; after a
/// refusal both are 0. `nesting` and `words` limit the reading, as in `capnp_canonical_check`.
pub fn capnp_canonical_size(
    frame: &[u8],
    nesting: i32,
    words: u64,
    word_count: &mut u64,
    cap_count: &mut u32,
) -> u32 {
    let size = size_frame(frame, Limits { nesting, words });
    store_size(size, word_count, cap_count)
}

/// Tests whether the message whose frame is at the front of `frame` is sound: whether its root
/// means a value within both limits, which may have capabilities. Stores in `extent` how deep the
/// value is, how much it holds, and what reading it costs. Takes no memory.
///
/// Answers 0 exactly for such messages. For others, `extent` is all 0.
pub fn capnp_canonical_validate(
    frame: &[u8],
    nesting: i32,
    words: u64,
    extent: &mut SoundMessage,
) -> u32 {
    let found = validate_frame(frame, Limits { nesting, words });
    store(found, NOT_SOUND, extent)
}

/// Finds the pointer at which reading the message whose frame is at the front of `frame` stops, and
/// stores its place and refusal in `pointer`; all 0 if the whole value is read. For use after
/// another call is refused: the message is read once more. Takes no memory.
///
/// `reading` says how the message is read, within the limits of `capnp_canonical_check`: 0 as by
/// the calls that validate and those that test; 1 as by those that copy and those that hash; 2 as
/// by those that measure. Any other number counts as 0. Refused only if there is no such frame;
/// then `pointer` is all 0 too.
pub fn capnp_canonical_locate(
    frame: &[u8],
    nesting: i32,
    words: u64,
    reading: u32,
    pointer: &mut BrokenPointer,
) -> u32 {
    let found = locate_in_frame(frame, Limits { nesting, words }, reading);
    store(found, NO_POINTER, pointer)
}

/// Stores in `digest` the SHA-256 of the canonical words of the message whose frame is at the front
/// of `frame`: of the bytes that `capnp_canonical_copy_flat` writes. `nesting` and `words` limit
/// the reading, as in `capnp_canonical_check`. After a refusal `digest` is all 0. The refusals are
/// those of `capnp_canonical_copy_flat`, except that there is always room.
pub fn capnp_canonical_digest(
    alloc: Global,
    frame: &[u8],
    nesting: i32,
    words: u64,
    digest: &mut [u8; 32],
) -> u32 {
    let made = digest_frame_after(alloc, &[], frame, Limits { nesting, words });
    store(made, [0; 32], digest)
}

/// Stores in `bytes` the size in bytes of the frame at the front of `frame`; after a refusal
/// `bytes` is 0. Refuses a message of more than `words` words.
pub fn capnp_canonical_frame_size(frame: &[u8], words: u64, bytes: &mut usize) -> u32 {
    let size = frame_size(frame, words);
    store(size, 0, bytes)
}

/// Stores in `bytes` how many bytes of a stream to have, from the start of a frame on, before
/// `capnp_canonical_frame_size` finds the frame whole: its size if `prefix`, the bytes that are
/// there, contains its segment table; otherwise the size of the table as far as `prefix` tells it,
/// which is more than `prefix` has. So read until as many bytes are there, and if `prefix` was
/// shorter than the table, ask again.
///
/// Refuses the frame if `prefix` tells that it has too many segments, or more than `words` words.
/// `bytes` is then 0.
pub fn capnp_canonical_frame_size_from_prefix(prefix: &[u8], words: u64, bytes: &mut usize) -> u32 {
    let size = frame_size_from_prefix(prefix, words);
    store(size, 0, bytes)
}

/// Unpacks `packed` (encoding specification, "Packing") to the front of `to`, and stores the number
/// of unpacked bytes in `written`. Takes no memory.
///
/// If `to` is too small, stores the number of bytes needed in `written`; for any other refusal, 0.
/// The bytes of `to` after the unpacked bytes are unchanged. If the call is refused, all bytes of
/// `to` are unchanged.
pub fn capnp_canonical_unpack(packed: &[u8], to: &mut [u8], written: &mut usize) -> u32 {
    let unpacked = unpack(packed, to);
    store_written(unpacked, written)
}

/// Packs `words` (encoding specification, "Packing") to the front of `to`, and stores the number of
/// packed bytes in `written`. `words` is whole words, such as the frames of messages. Takes no
/// memory.
///
/// The packed bytes are those that C++ and Rust make of the words, each run as long as it can be.
/// There are at most 10 for each word. If `to` is too small, stores the number of bytes needed in
/// `written`; for any other refusal, 0. The bytes of `to` after the packed bytes are unchanged. If
/// the call is refused, all bytes of `to` are unchanged.
pub fn capnp_canonical_pack(words: &[u8], to: &mut [u8], written: &mut usize) -> u32 {
    let packed = pack(words, to);
    store_written(packed, written)
}

/// Unpacks the next bytes of a packed stream to the front of `to`, and goes on from where the last
/// call with this `unpacking` stopped; at the start of a stream its numbers are 0. Stops when `to`
/// is full or no packed bytes are left. Stores how many it took in `taken`, and returns the number
/// of bytes written. Is never refused, and takes no memory.
///
/// Takes only the packed bytes that it needs for what it writes, and the count after the last word
/// if that is in `packed`.
pub fn capnp_canonical_unpack_piece(
    unpacking: &mut Unpacking,
    packed: &[u8],
    to: &mut [u8],
    taken: &mut usize,
) -> usize {
    unpack_further(unpacking, packed, to, taken)
}

/// Stores the text of the answer with the number `answer` in `text`: a constant, one or more bytes
/// that aren't zero, and a terminating zero byte. So it is the text of a refusal as this library
/// knows it, even if the header that the caller was compiled with is older.
pub fn capnp_canonical_answer_text(answer: u32, text: &mut &'static [u8]) {
    *text = text_of_answer(answer);
}

/// Writes the name of the refusal with the number `answer` to the front of `to`, followed by a
/// terminating zero byte; cuts the name if `to` is too small. Returns the length of the whole name
/// in bytes; 0 if no refusal has this number.
pub fn capnp_canonical_name(answer: u32, to: &mut [u8]) -> usize {
    put_text(name_of_number(answer), to)
}

/// Writes the text of the reason with the number `reason` (see `Fault`) to the front of `to`.
/// Terminates and cuts the text, and returns the length of the whole text, like
/// `capnp_canonical_name`.
pub fn capnp_canonical_reason_text(reason: u32, to: &mut [u8]) -> usize {
    put_text(text_of_reason(reason), to)
}

/// The version of the library: major * 10000 + minor * 100 + patch.
pub fn capnp_canonical_version() -> u32 {
    10100
}

/// Writes the library's version as text to the front of `to`. Terminates and cuts the text, and
/// returns the length of the whole text, like `capnp_canonical_name`.
pub fn capnp_canonical_version_text(to: &mut [u8]) -> usize {
    put_text("1.1.0", to)
}
