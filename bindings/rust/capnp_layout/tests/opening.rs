//! Opens messages in each way, whole and cut short.
use capnp_layout::{Builder, FrameError, Limits, Message, Reason, StructSize};
use std::error::Error as _;
use std::io::{self, Read};

const WHOLE: &[u8] = include_bytes!("data/all.bin");
const SEGMENTS: &[u8] = include_bytes!("data/all-segments.bin");
const PACKED: &[u8] = include_bytes!("data/all-packed.bin");
const LIMITS: Limits = Limits {
    words: 1000,
    depth: 64,
};

fn reason(made: Result<Message<'_>, capnp_layout::Error>) -> Reason {
    made.unwrap_err().reason()
}

#[test]
fn all_ways_are_the_same_message() {
    let whole = Message::open(WHOLE, LIMITS).unwrap();
    let digest = whole.digest().unwrap();
    assert_eq!(whole.limits(), LIMITS);
    assert_eq!(whole.size_in_words(), WHOLE.len() / 8 - 1);
    let segments = Message::open(SEGMENTS, LIMITS).unwrap();
    let lent: Vec<&[u8]> = segments.segments().collect();
    assert!(lent.len() > 3, "{}", lent.len());
    let ways = [
        Message::from_words(&WHOLE[8..], LIMITS),
        Message::from_segments(&lent, LIMITS),
        Message::open_packed(PACKED, LIMITS),
        Message::copy(SEGMENTS, LIMITS),
        Message::read(SEGMENTS, LIMITS),
    ];
    for message in ways {
        let message = message.unwrap();
        assert_eq!(message.digest().unwrap(), digest);
        assert_eq!(message.sound().unwrap().digest().unwrap(), digest);
        assert_eq!(message.sound_pointer().unwrap().digest().unwrap(), digest);
    }
}

#[test]
fn opening_copies_nothing() {
    let message = Message::open(WHOLE, LIMITS).unwrap();
    let text = message.sound().unwrap().get_text(10).unwrap();
    assert!(WHOLE.as_ptr_range().contains(&text.as_ptr()));
}

#[test]
fn every_cut_is_refused() {
    for whole in [WHOLE, SEGMENTS] {
        for cut in 0..whole.len() {
            let expected = Reason::Frame(FrameError::Truncated);
            assert_eq!(reason(Message::open(&whole[..cut], LIMITS)), expected);
            assert_eq!(reason(Message::copy(&whole[..cut], LIMITS)), expected);
            assert_eq!(reason(Message::read(&whole[..cut], LIMITS)), expected);
        }
    }
    for cut in 0..PACKED.len() {
        assert_eq!(
            reason(Message::open_packed(&PACKED[..cut], LIMITS)),
            Reason::Frame(FrameError::Truncated),
            "{cut}"
        );
    }
}

#[test]
fn bytes_after_a_message() {
    for more in 1..20 {
        let bytes = [WHOLE, &vec![0; more]].concat();
        assert_eq!(
            reason(Message::open(&bytes, LIMITS)),
            Reason::TrailingBytes(more)
        );
        assert_eq!(
            reason(Message::copy(&bytes, LIMITS)),
            Reason::TrailingBytes(more)
        );
        let (message, rest) = Message::open_first(&bytes, LIMITS).unwrap();
        assert_eq!(
            (message.size_in_words(), rest.len()),
            (WHOLE.len() / 8 - 1, more)
        );
        let mut reader = &bytes[..];
        Message::read(&mut reader, LIMITS).unwrap();
        assert_eq!(reader.len(), more, "read takes no byte after the frame");
    }
    assert_eq!(
        reason(Message::open_packed(&[PACKED, &[0, 0]].concat(), LIMITS)),
        Reason::TrailingBytes(8)
    );
    assert_eq!(
        reason(Message::open_packed(&[PACKED, &[0]].concat(), LIMITS)),
        Reason::TrailingBytes(8)
    );
}

#[test]
fn too_large() {
    let few = Limits {
        words: WHOLE.len() / 8 - 2,
        ..LIMITS
    };
    let expected = Reason::Frame(FrameError::MessageTooLong(WHOLE.len() as u64 / 8 - 1));
    assert_eq!(reason(Message::open(WHOLE, few)), expected);
    assert_eq!(reason(Message::copy(WHOLE, few)), expected);
    assert!(Message::open(WHOLE, few).unwrap_err().is_limit());
    let table = [&512u32.to_le_bytes()[..], &[0; 4 * 513]].concat();
    assert_eq!(
        reason(Message::open(&table, LIMITS)),
        Reason::Frame(FrameError::TooManySegments(513))
    );
}

#[test]
fn words_that_are_none() {
    assert_eq!(
        reason(Message::from_words(&WHOLE[9..], LIMITS)),
        Reason::SegmentIsNotWholeWords
    );
    assert_eq!(
        reason(Message::from_segments(&[&[0; 8], &[0; 7]], LIMITS)),
        Reason::SegmentIsNotWholeWords
    );
    // no words, no segments, a null pointer
    let empty = Message::from_words(&[], LIMITS).unwrap();
    assert_eq!(
        empty.sound().unwrap_err().name(),
        "MessageContainsOutOfBoundsPointer"
    );
    let none = Message::from_segments(&[], LIMITS).unwrap();
    assert_eq!(none.sound().unwrap_err().name(), "InvalidSegmentId");
    assert_eq!((none.segments().next(), none.size_in_words()), (None, 0));
    assert_eq!(none.lazy().unwrap_err().name(), "InvalidSegmentId");
    assert_eq!(none.canonical().unwrap_err().name(), "InvalidSegmentId");
    let null = Message::from_words(&[0; 8], LIMITS).unwrap();
    assert_eq!(
        (null.sound().unwrap().get_u64(0), null.walk().unwrap().len()),
        (0, 0)
    );
    assert_eq!(null.canonical().unwrap(), [0; 8]);
}

/// A reader that is interrupted before each byte, and fails at the end.
struct Slow<'a>(&'a [u8], bool);

impl Read for Slow<'_> {
    fn read(&mut self, to: &mut [u8]) -> io::Result<usize> {
        self.1 = !self.1;
        match (self.1, self.0) {
            (true, _) => Err(io::ErrorKind::Interrupted.into()),
            (false, []) => Err(io::Error::new(
                io::ErrorKind::ConnectionReset,
                "the line is dead",
            )),
            (false, [first, rest @ ..]) => {
                to[0] = *first;
                self.0 = rest;
                Ok(1)
            }
        }
    }
}

/// A reader that claims to have read more than there was room for.
struct Liar;

impl Read for Liar {
    fn read(&mut self, to: &mut [u8]) -> io::Result<usize> {
        Ok(to.len() + 1)
    }
}

#[test]
fn readers_that_fail() {
    let message = Message::read(Slow(SEGMENTS, false), LIMITS).unwrap();
    assert_eq!(message.sound().unwrap().get_text(10).unwrap(), "Zoë");
    let error = Message::read(Slow(&SEGMENTS[..99], false), LIMITS).unwrap_err();
    assert_eq!(error.reason(), Reason::Frame(FrameError::ReadFailed));
    assert_eq!(error.source().unwrap().to_string(), "the line is dead");
    assert_eq!(error.clone(), error);
    assert!(Message::read(io::empty(), LIMITS)
        .unwrap_err()
        .source()
        .is_none());
    let _ = Message::read(Liar, LIMITS);
}

#[test]
fn many_frames() {
    let mut bytes = Vec::new();
    for n in 0..10u64 {
        let mut built = Builder::new();
        built
            .init_root(StructSize {
                data_words: 1,
                pointers: 0,
            })
            .set_u64(0, n);
        built.write(&mut bytes).unwrap();
    }
    let mut reader = &bytes[..];
    let mut rest = &bytes[..];
    for n in 0..10 {
        let (message, after) = Message::open_first(rest, LIMITS).unwrap();
        rest = after;
        let read = Message::read(&mut reader, LIMITS).unwrap();
        assert_eq!(
            (
                message.sound().unwrap().get_u64(0),
                read.sound().unwrap().get_u64(0)
            ),
            (n, n)
        );
    }
    assert_eq!(
        reason(Message::open(rest, LIMITS)),
        Reason::Frame(FrameError::Truncated)
    );
}
