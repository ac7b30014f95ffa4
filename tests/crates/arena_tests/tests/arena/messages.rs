//! Tests that messages are built, written and read if there is memory, and how a stream of them
//! ends. Contracts leave open whether memory is granted.

use capnp_proved::capnp_arena::arena::ReaderArena;
use capnp_proved::capnp_framing::devices::{MemoryInput, MemoryOutput};
use capnp_proved::capnp_framing::framing::FrameError;
use capnp_proved::capnp_packing::packing::UnpackingInput;
use capnp_proved::support::alloc::Global;
use capnp_proved::typed_messages::message::{MessageBuilder, MessageReader, ReaderOptions};
use capnp_proved::typed_messages::serialize::{
    read_message, read_message_from_flat_slice, write_message, Messages,
};
use capnp_proved::typed_messages::serialize_packed;

/// The frame of a message that is a null root pointer.
const FRAME: &[u8] = b"\0\0\0\0\x01\0\0\0\0\0\0\0\0\0\0\0";

/// `FRAME` packed. A byte after the tag of a zero word states how many more follow it.
const PACKED: &[u8] = b"\x10\x01\0\0";

/// Checks that the message has a null root pointer and no other word.
#[track_caller]
fn check_null_message(arena: &impl ReaderArena) {
    assert_eq!(arena.size_in_words(), 1);
    assert_eq!(arena.get_segment(0), Ok([0; 8].as_slice()));
}

#[test]
fn a_frame_is_written_and_read() {
    let message = MessageBuilder::new(Global, 0).unwrap();
    let mut output = MemoryOutput::new(Global);
    write_message(&mut output, &message).unwrap();
    assert_eq!(output.bytes(), FRAME);

    let options = ReaderOptions::default();
    let read = read_message(Global, &mut MemoryInput::new(FRAME), options).unwrap();
    check_null_message(&read.arena);
    let in_place = read_message_from_flat_slice(FRAME, options).unwrap();
    check_null_message(&in_place.arena);
    assert_eq!(in_place.into_segments().size_in_bytes(), 16);
}

#[test]
fn a_packed_frame_is_written_and_read() {
    let message = MessageBuilder::new(Global, 0).unwrap();
    let output = serialize_packed::write_message(MemoryOutput::new(Global), &message).unwrap();
    assert_eq!(output.bytes(), PACKED);

    let input = MemoryInput::new(PACKED);
    let read = serialize_packed::read_message(Global, input, ReaderOptions::default()).unwrap();
    check_null_message(&read.arena);
}

/// Two frames, and the beginning of a third.
#[test]
fn a_stream_ends_with_its_first_error() {
    let bytes = [FRAME, FRAME, &FRAME[..12]].concat();
    let input = MemoryInput::new(&bytes);
    let mut messages = Messages::new(Global, input, ReaderOptions::default());
    for _ in 0..2 {
        let MessageReader { arena, limiter } = messages.next().unwrap().unwrap();
        check_null_message(&arena);
        assert_eq!(limiter.left(), Some(8_388_608));
    }
    let refused = messages.next().unwrap().err();
    assert_eq!(refused, Some(FrameError::Truncated));
    assert!(messages.next().is_none());
}

/// The head of a frame of 2^32 segments, and a whole frame.
#[test]
fn nothing_is_read_after_an_error() {
    let bytes = [b"\xff\xff\xff\xff\0\0\0\0", FRAME].concat();
    let input = MemoryInput::new(&bytes);
    let mut messages = Messages::new(Global, input, ReaderOptions::default());
    let refused = messages.next().unwrap().err();
    assert_eq!(refused, Some(FrameError::TooManySegments(1 << 32)));
    assert!(messages.next().is_none());
}

/// The number of messages in `packed`, and whether it ends where it may.
fn count_packed(packed: &[u8]) -> (usize, bool) {
    let input = UnpackingInput::new(MemoryInput::new(packed));
    let mut messages = Messages::new(Global, input, ReaderOptions::default());
    let count = messages.by_ref().map(Result::unwrap).count();
    (count, messages.into_input().is_whole_at_end().unwrap())
}

#[test]
fn a_packed_stream_may_be_cut_after_a_message() {
    assert_eq!(count_packed(PACKED), (1, true));
    assert_eq!(count_packed(&PACKED[..3]), (1, false));
}
