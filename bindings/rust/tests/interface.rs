//! What came after version 1.0.0: places of errors, limits by name, readers that end after an error.
use capnp_canonical::{
    canonical_words, canonical_words_at, check, digest, frames, is_canonical, locate, segments,
    size, validate, walk, words, Error, ErrorKind, FrameReader, Kind, Limits, PackedFrameReader,
    Pointer, Reading, Words,
};
use std::hash::{DefaultHasher, Hash, Hasher};
use std::io::{self, Read};

/// A frame of one segment.
fn framed(words: &[u64]) -> Vec<u8> {
    let table = (words.len() as u64) << 32;
    let words = words.iter().flat_map(|word| word.to_le_bytes());
    table.to_le_bytes().into_iter().chain(words).collect()
}

/// A struct of one data word and two pointers. The second pointer leads out of the segment.
fn broken() -> Vec<u8> {
    framed(&[1 << 32 | 2 << 48, 7, 0, 0x900 | 1 << 32])
}

/// The segment and the word of a pointer.
fn place(pointer: Option<Pointer>) -> Option<(u64, u32)> {
    pointer.map(|it| (it.segment, it.word))
}

#[test]
fn errors_have_the_place_of_the_pointer() {
    let (frame, limits) = (broken(), Limits::default());
    let part = [&frame[8..]];
    let errors = [
        canonical_words(&frame, limits).err(),
        digest(&frame, limits).err(),
        check(&frame, limits).err(),
        size(&frame, limits).err(),
        validate(&frame, limits).err(),
        segments::canonical_copy(&part, limits).err(),
        segments::digest(&part, limits).err(),
        words::check(part[0], limits).err(),
        words::size(part[0], limits).err(),
        locate(&frame, Reading::Value, limits).map_or(None, |it| it.map(|it| it.error)),
        walk(&frame, 9, limits).map_or(None, |it| it.broken.map(|it| it.error)),
    ];
    for (call, error) in errors.into_iter().enumerate() {
        let error = error.unwrap_or_else(|| panic!("call {call} isn't refused"));
        assert_eq!(
            error,
            Error::MESSAGE_CONTAINS_OUT_OF_BOUNDS_POINTER,
            "{call}"
        );
        assert_eq!(place(error.pointer()), Some((0, 3)), "{call}");
        assert_eq!(
            error.to_string(),
            "MessageContainsOutOfBoundsPointer at segment 0, word 3: a pointer points outside its segment"
        );
        let name = "Error(55 MessageContainsOutOfBoundsPointer at segment 0, word 3)";
        assert_eq!(format!("{error:?}"), name);
    }
    let stream = frames(&frame, 9).next().unwrap().unwrap();
    let error = canonical_words(stream, limits).map_err(|error| stream.refused(error));
    assert_eq!(
        error.unwrap_err().to_string(),
        "message 1 at byte 0: MessageContainsOutOfBoundsPointer at segment 0, word 3: a pointer points outside its segment"
    );
}

#[test]
fn the_place_is_that_of_the_call() {
    // a struct of a capability and a pointer that leads out of the segment
    let frame = framed(&[2 << 48, 3, 0x900 | 1 << 32]);
    let limits = Limits::default();
    let of_copy = canonical_words(&frame, limits).unwrap_err();
    assert_eq!(of_copy.kind(), ErrorKind::Capability);
    assert_eq!(place(of_copy.pointer()), Some((0, 1)));
    let of_value = validate(&frame, limits).unwrap_err();
    assert_eq!(of_value.kind(), ErrorKind::Malformed);
    assert_eq!(place(of_value.pointer()), Some((0, 2)));
    // a limit is exceeded at a pointer, too
    let chain = framed(&[1 << 48, 1 << 48, 0]);
    let deep = validate(&chain, limits.with_nesting(1)).unwrap_err();
    assert_eq!(
        (deep.kind(), place(deep.pointer())),
        (ErrorKind::OverLimit, Some((0, 1)))
    );
}

#[test]
fn some_errors_have_no_place() {
    let (frame, limits) = (broken(), Limits::default());
    let errors = [
        canonical_words(&frame[..20], limits).err(),
        canonical_words([], limits).err(),
        words::canonical_words(&frame[..12], limits).err(),
        canonical_words_at(&frame, &[1], limits).err(),
        canonical_words_at(&frame, &[7], limits).err(),
        segments::digest(&[] as &[&[u8]], limits).err(),
        Some(Error::UNKNOWN_POINTER_TYPE),
    ];
    let found = errors.map(|error| error.map(|error| (error.name(), place(error.pointer()))));
    let wanted = [
        ("Truncated", None),
        ("NoMessage", None),
        ("SegmentIsNotWholeWords", None),
        ("MessageContainsOutOfBoundsPointer", None),
        ("NoSuchPlace", None),
        // the root pointer, which isn't there
        ("InvalidSegmentId", Some((0, 0))),
        ("UnknownPointerType", None),
    ];
    assert_eq!(found, wanted.map(Some));
}

#[test]
fn errors_are_equal_if_their_numbers_are() {
    let found = validate(broken(), Limits::default()).unwrap_err();
    let named = Error::from(found.number());
    let hash = |error: Error| {
        let mut state = DefaultHasher::new();
        error.hash(&mut state);
        state.finish()
    };
    assert_eq!((found, hash(found)), (named, hash(named)));
    assert_eq!(named.pointer(), None);
    assert_ne!(found, Error::INVALID_SEGMENT_ID);
}

#[test]
fn each_error_has_a_kind() {
    for (kind, numbers) in [
        (ErrorKind::Incomplete, &[2, 19][..]),
        (ErrorKind::Malformed, &[3, 34, 42, 43, 44, 45, 55, 66]),
        (ErrorKind::OverLimit, &[18, 57, 58, 60, 62]),
        (ErrorKind::TooLarge, &[17, 59]),
        (ErrorKind::OutOfMemory, &[32]),
        (ErrorKind::Capability, &[33]),
        (ErrorKind::NoSuchPlace, &[61]),
        (ErrorKind::Other, &[1_000_000]),
    ] {
        for number in numbers {
            assert_eq!(Error::from(*number).kind(), kind, "{number}");
        }
    }
}

#[test]
fn limits_by_name() {
    let frame = framed(&[3 << 32, 7, 8, 0]);
    let limits = Limits::default().with_nesting(1).with_words(4);
    assert_eq!((limits.nesting, limits.words), (1, 4));
    assert!(canonical_words(&frame, limits).is_ok());
    let refused = canonical_words(&frame, limits.with_words(3));
    assert_eq!(refused, Err(Error::MESSAGE_TOO_LONG));
    for nesting in [0, -1, i32::MIN] {
        let refused = canonical_words(&frame, limits.with_nesting(nesting));
        assert_eq!(refused.map_err(Error::kind), Err(ErrorKind::OverLimit));
    }
}

/// Reads an error after some bytes, and then the rest.
struct Interrupted<'a> {
    parts: Vec<Result<&'a [u8], io::ErrorKind>>,
}

impl Read for Interrupted<'_> {
    fn read(&mut self, to: &mut [u8]) -> io::Result<usize> {
        match self.parts.pop() {
            None => Ok(0),
            Some(Err(kind)) => Err(kind.into()),
            Some(Ok(mut part)) => {
                let count = part.read(to)?;
                if !part.is_empty() {
                    self.parts.push(Ok(part));
                }
                Ok(count)
            }
        }
    }
}

#[test]
fn readers_end_after_an_error() {
    let whole = framed(&[1 << 32, 42]);
    let table = [0, 0, 0, 0, 9, 0, 0, 0];
    let stream = [&table[..], &whole].concat();
    let mut frames = FrameReader::new(&stream[..], 8);
    assert!(frames.next_frame().is_err());
    assert_eq!(frames.next_frame().unwrap(), None);
    // a reset in the middle of a frame, and an interruption, which the reader passes over
    let reset = || Interrupted {
        parts: vec![
            Ok(&whole),
            Err(io::ErrorKind::ConnectionReset),
            Ok(&whole[..20]),
            Err(io::ErrorKind::Interrupted),
            Ok(&whole),
        ],
    };
    let mut frames = FrameReader::new(reset(), 8);
    assert!(frames.next_frame().unwrap().is_some());
    let error = frames.next_frame().unwrap_err();
    assert_eq!(error.kind(), io::ErrorKind::ConnectionReset);
    assert_eq!(frames.next_frame().unwrap(), None);
    // a packed stream that ends inside a word, inside a frame, and before the count after a word
    for (packed, whole) in [
        (&[0x10, 1, 0x11][..], 0),
        (&[0x10, 1], 0),
        (&[0x10, 1, 0], 1),
    ] {
        let mut frames = PackedFrameReader::new(packed, 8);
        for _ in 0..whole {
            assert!(frames.next_frame().unwrap().is_some());
        }
        let error = frames.next_frame().unwrap_err().to_string();
        assert!(error.contains(": Truncated: "), "{error}");
        assert_eq!(frames.next_frame().unwrap(), None);
    }
}

/// Says that it read more than it had room for.
struct Boasting;

impl Read for Boasting {
    fn read(&mut self, to: &mut [u8]) -> io::Result<usize> {
        Ok(to.len() + 1)
    }
}

#[test]
#[should_panic(expected = "more bytes than it had room for")]
fn a_reader_that_boasts_is_refused() {
    let _ = FrameReader::new(Boasting, 8).next_frame();
}

#[test]
#[should_panic(expected = "more bytes than it had room for")]
fn a_packed_reader_that_boasts_is_refused() {
    let _ = PackedFrameReader::new(Boasting, 8).next_frame();
}

/// A list of pointers, each of them to a text.
fn texts(count: u64) -> Vec<u8> {
    let list = 1 | 6 << 32 | count << 35;
    let pointers = (0..count).map(|_| 1 | (count - 1) << 2 | 2 << 32 | 8 << 35);
    let texts = (0..count).map(|_| 0x0061_6161_6161_6161);
    framed(
        &[list]
            .into_iter()
            .chain(pointers)
            .chain(texts)
            .collect::<Vec<_>>(),
    )
}

#[test]
fn a_walk_takes_room_for_what_there_is() {
    let (frame, limits) = (texts(1000), Limits::default());
    // no memory is taken for objects that aren't there
    let all = walk(&frame, usize::MAX, limits).unwrap();
    assert_eq!((all.count, all.objects.len()), (1001, 1001));
    assert_eq!(all.objects[0].kind, Kind::ListOfPointers);
    assert!(all.objects[1..]
        .iter()
        .all(|it| (it.kind, it.parent, it.count) == (Kind::ListOfBytes, Some(0), 8)));
    for most in [0, 1, 63, 64, 65, 1000, 1001, 1002] {
        let some = walk(&frame, most, limits).unwrap();
        assert_eq!(some.count, 1001);
        assert_eq!(some.objects, all.objects[..most.min(1001)]);
    }
}

/// A word after the last level makes a message not canonical. The levels are structs, lists of pointers, or lists of structs.
fn nested(level: &[u64], levels: usize, is_canonical: bool) -> Vec<u8> {
    let mut words = level.repeat(levels);
    words.resize(words.len() + if is_canonical { 1 } else { 2 }, 0);
    framed(&words)
}

#[test]
fn the_most_levels_fit_in_a_stack_of_2_mib() {
    let most = Limits::MAX_NESTING as usize;
    let limits = Limits::default().with_nesting(i32::MAX);
    let test = move || {
        let kinds: [&[u64]; 3] = [
            &[1 << 48],
            &[1 | 6 << 32 | 1 << 35],
            &[1 | 7 << 32 | 1 << 35, 1 << 2 | 1 << 48],
        ];
        for level in kinds {
            let frame = nested(level, most, false);
            assert!(canonical_words(&frame, limits).is_ok());
            assert!(canonical_words_at(&frame, &[0], limits).is_ok());
            assert!(digest(&frame, limits).is_ok());
            assert!(!is_canonical(&frame, limits));
            assert!(check(&frame, limits).is_ok());
            assert!(size(&frame, limits).is_ok());
            assert_eq!(validate(&frame, limits).map(|it| it.depth), Ok(most as u32));
            for reading in [Reading::Value, Reading::Canonical, Reading::Size] {
                assert_eq!(locate(&frame, reading, limits), Ok(None));
            }
            assert!(walk(&frame, 10_000, limits).is_ok_and(|it| it.count == most));
            let frame = nested(level, most + 1, false);
            let refused = canonical_words(&frame, limits).unwrap_err();
            assert_eq!(refused.kind(), ErrorKind::OverLimit);
            assert!(refused.pointer().is_some());
        }
    };
    let thread = std::thread::Builder::new().stack_size(2 << 20);
    thread.spawn(test).unwrap().join().unwrap();
}

#[test]
fn words_have_a_type() {
    let limits = Limits::default();
    // a struct of three words, the last zero
    let frame = framed(&[3 << 32, 7, 8, 0]);
    let flat = [2 << 32, 7, 8].map(u64::to_le_bytes).concat();
    let words = Words::of(&frame, limits).unwrap();
    assert_eq!(words.as_bytes(), flat);
    assert_eq!(Words::of_part(&frame, &[], limits), Ok(words.clone()));
    assert_eq!(
        Words::of_segments(&[&frame[8..]], limits),
        Ok(words.clone())
    );
    let stored = Words::from_bytes(&flat[..]);
    assert_eq!(stored, words.borrowed());
    assert_eq!(stored.into_bytes(), flat);
    assert_eq!(words.canonical(limits), Ok(words.clone()));
    assert_eq!(words.canonical_at(&[], limits), Ok(words.clone()));
    assert_eq!(words.digest(limits), digest(&frame, limits));
    assert_eq!(words.digest_at(&[], limits), digest(&frame, limits));
    assert_eq!(words.check(limits), Ok(None));
    assert!(words.is_canonical(limits));
    assert_eq!(words.size(limits).unwrap().words, 2);
    assert_eq!(words.size_at(&[], limits).unwrap().words, 2);
    assert_eq!(words.validate(limits).unwrap().depth, 1);
    assert_eq!(words.locate(Reading::Value, limits), Ok(None));
    assert_eq!(words.walk(9, limits).unwrap().count, 1);
    let cut = Words::from_bytes(&flat[1..]);
    assert_eq!(cut.digest(limits), Err(Error::SEGMENT_IS_NOT_WHOLE_WORDS));
    assert_eq!(words.digest_at(&[7], limits), Err(Error::NO_SUCH_PLACE));
}
