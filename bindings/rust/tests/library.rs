//! The messages of tests/library/rows/messages.txt, and what that file can't say. As version 1.0.0 had them, so they also show
//! that programs for it go on to compile.
#![allow(deprecated)]
use capnp_canonical::{
    canonical_copy, canonical_words, canonical_words_at, canonical_words_into, check, digest,
    digest_at, frame_size, frames, is_canonical, locate, looks_like, segments, size, size_at,
    unpack, unpack_into, version, walk, words, Error, Fault, FrameReader, Kind, Limits, Object,
    PackedFrameReader, Reading, Reason, Size,
};
use std::fs;

const MESSAGES: &str = concat!(env!("CARGO_MANIFEST_DIR"), "/tests/messages.txt");
const PACKED: &str = concat!(env!("CARGO_MANIFEST_DIR"), "/tests/packed.txt");
const PARTS: &str = concat!(env!("CARGO_MANIFEST_DIR"), "/tests/parts.txt");
const STREAMS: &str = concat!(env!("CARGO_MANIFEST_DIR"), "/tests/streams.txt");
/// A struct of three words, of which the last is zero.
const ZERO_WORD: &str =
    "000000000400000000000000030000001111111111111111ffffffffffffffff0000000000000000";
const ZERO_WORD_FLAT: &str = "00000000020000001111111111111111ffffffffffffffff";
/// Two pointers to one text of 16 bytes: its canonical form has two texts, and is longer.
const SHARED: &str = "000000000500000000000000000002000500000082000000010000008200000061626364656667686162636465666700";
const SHARED_FLAT: &str =
    "00000000000002000500000082000000090000008200000061626364656667686162636465666700616263646566676861626364656667\
     00";

/// Why a test fails: an error, or a line of the file that isn't as its head says.
type Tested = Result<(), Box<dyn std::error::Error>>;

fn bytes_of(digits: &str) -> Vec<u8> {
    let digits = digits.trim_matches('-');
    (0..digits.len())
        .step_by(2)
        .map(|at| u8::from_str_radix(&digits[at..at + 2], 16).unwrap())
        .collect()
}

fn framed(words: &[u8]) -> Vec<u8> {
    let count = u32::try_from(words.len() / 8).unwrap();
    [&[0; 4], &count.to_le_bytes(), words].concat()
}

/// The segments of a whole frame.
fn segments_in(frame: &[u8]) -> Vec<&[u8]> {
    let number = |at: usize| u32::from_le_bytes(frame[at..at + 4].try_into().unwrap()) as usize;
    let count = number(0) + 1;
    let mut rest = &frame[(4 + 4 * count).next_multiple_of(8)..];
    let mut segments = Vec::new();
    for id in 0..count {
        let (segment, behind) = rest.split_at(8 * number(4 + 4 * id));
        segments.push(segment);
        rest = behind;
    }
    segments
}

/// What a call gives as text, or the name of its refusal.
fn answer<T>(result: Result<T, Error>, text: impl FnOnce(T) -> String) -> String {
    result.map_or_else(|error| error.name().to_string(), text)
}

fn fault_text(fault: Option<Fault>) -> String {
    fault.map_or("yes".into(), |fault| {
        format!("{},{},{}", fault.reason.number(), fault.segment, fault.word)
    })
}

fn size_text(size: Size) -> String {
    format!("{},{}", size.words, size.capabilities)
}

/// Canonical words, by the module of raw words.
fn require_words(flat: &[u8], hash: &str, are_there: bool) {
    if are_there {
        let limits = Limits::default();
        assert_eq!(words::canonical_words(flat, limits).as_deref(), Ok(flat));
        assert_eq!(
            words::digest(flat, limits).map(Vec::from),
            Ok(bytes_of(hash))
        );
        assert_eq!(words::check(flat, limits), Ok(None));
        assert!(words::is_canonical(flat, limits));
        assert!(words::size(flat, limits).is_ok_and(|it| 8 * it.words + 8 >= flat.len() as u64));
    }
}

#[test]
fn messages() -> Tested {
    let limits = Limits::default();
    let text = fs::read_to_string(MESSAGES)?;
    let lines = text.lines().filter(|line| !line.starts_with('#'));
    let mut count = 0;
    for line in lines {
        let [name, frame, copy, flat, checked, measured, hash] = line
            .split(' ')
            .collect::<Vec<_>>()
            .try_into()
            .map_err(|_| format!("not seven words: {line}"))?;
        let frame = bytes_of(frame);
        let wanted = |bytes: Vec<u8>| {
            if copy == "Done" {
                Ok(bytes)
            } else {
                Err(copy.to_string())
            }
        };
        let named =
            |result: Result<Vec<u8>, Error>| result.map_err(|error| error.name().to_string());
        assert_eq!(
            named(canonical_copy(&frame, limits)),
            wanted(framed(&bytes_of(flat))),
            "{name}"
        );
        assert_eq!(
            named(canonical_words(&frame, limits)),
            wanted(bytes_of(flat)),
            "{name}"
        );
        assert_eq!(
            named(digest(&frame, limits).map(Vec::from)),
            wanted(bytes_of(hash)),
            "{name}"
        );
        assert_eq!(answer(check(&frame, limits), fault_text), checked, "{name}");
        assert_eq!(answer(size(&frame, limits), size_text), measured, "{name}");
        assert_eq!(is_canonical(&frame, limits), checked == "yes", "{name}");
        require_words(&bytes_of(flat), hash, copy == "Done");
        count += 1;
        if ["Truncated", "NoMessage"].contains(&copy) {
            continue;
        }
        let parts = segments_in(&frame);
        assert_eq!(
            named(segments::canonical_copy(&parts, limits)),
            wanted(framed(&bytes_of(flat))),
            "{name}"
        );
        assert_eq!(
            named(segments::canonical_words(&parts, limits)),
            wanted(bytes_of(flat)),
            "{name}"
        );
        assert_eq!(
            named(segments::digest(&parts, limits).map(Vec::from)),
            wanted(bytes_of(hash)),
            "{name}"
        );
        assert_eq!(
            answer(segments::check(&parts, limits), fault_text),
            checked,
            "{name}"
        );
        assert_eq!(
            answer(segments::size(&parts, limits), size_text),
            measured,
            "{name}"
        );
    }
    assert_eq!(count, 10);
    Ok(())
}

#[test]
fn given_segments() {
    let limits = Limits::default();
    let frame = bytes_of(ZERO_WORD);
    let words = &frame[8..];
    assert_eq!(
        segments::canonical_words(&[words], limits),
        Ok(bytes_of(ZERO_WORD_FLAT))
    );
    assert_eq!(
        segments::canonical_words(&[words, &[]], limits),
        Ok(bytes_of(ZERO_WORD_FLAT))
    );
    assert_eq!(
        segments::canonical_words(&vec![words.to_vec(), Vec::new()], limits),
        Ok(bytes_of(ZERO_WORD_FLAT))
    );
    assert!(!segments::is_canonical(&[words], limits));
    assert_eq!(
        segments::canonical_words(&[] as &[&[u8]], limits),
        Err(Error::INVALID_SEGMENT_ID)
    );
    assert_eq!(
        segments::canonical_words(&[&words[..28]], limits),
        Err(Error::SEGMENT_IS_NOT_WHOLE_WORDS)
    );
}

#[test]
fn copies_that_are_longer_than_their_message() {
    let limits = Limits::default();
    let frame = bytes_of(SHARED);
    assert_eq!(canonical_words(&frame, limits), Ok(bytes_of(SHARED_FLAT)));
    assert_eq!(
        canonical_copy(&frame, limits),
        Ok(framed(&bytes_of(SHARED_FLAT)))
    );
    assert_eq!(
        segments::canonical_words(&[&frame[8..]], limits),
        Ok(bytes_of(SHARED_FLAT))
    );
    assert_eq!(
        segments::canonical_copy(&[&frame[8..]], limits),
        Ok(framed(&bytes_of(SHARED_FLAT)))
    );
}

#[test]
fn limits() {
    let frame = bytes_of(ZERO_WORD);
    assert!(canonical_copy(&frame, Limits::new(2, 4)).is_ok());
    assert_eq!(
        canonical_copy(&frame, Limits::new(2, 3)),
        Err(Error::MESSAGE_TOO_LONG)
    );
    assert_eq!(
        canonical_copy(&frame, Limits::new(0, 4)),
        Err(Error::MESSAGE_IS_TOO_DEEPLY_NESTED_OR_CONTAINS_CYCLES)
    );
    assert_eq!(
        canonical_copy(&bytes_of(SHARED), Limits::new(64, 6)),
        Err(Error::READ_LIMIT_EXCEEDED)
    );
}

#[test]
fn faults() -> Tested {
    let frame = bytes_of(ZERO_WORD);
    let fault = check(&frame, Limits::default())?.ok_or("no fault")?;
    assert_eq!(
        (fault.reason, fault.segment, fault.word),
        (Reason::DATA_SECTION, 0, 3)
    );
    assert_eq!(
        fault.to_string(),
        "a data section whose last word is zero at segment 0, word 3"
    );
    assert_eq!(
        check(
            &canonical_copy(&frame, Limits::default())?,
            Limits::default()
        ),
        Ok(None)
    );
    Ok(())
}

#[test]
fn frames_of_a_stream() {
    let mut stream = [bytes_of(ZERO_WORD), bytes_of(SHARED)].concat();
    let words = Limits::default().words;
    let places: Result<Vec<_>, _> = frames(&stream, words)
        .map(|frame| frame.map(|it| (it.message, it.byte, it.len())))
        .collect();
    assert_eq!(places, Ok(vec![(1, 0, 40), (2, 40, 48)]));
    assert_eq!(frame_size(&stream, words), Ok(40));
    assert_eq!(frames(&[], words).count(), 0);
    stream.pop();
    let found: Vec<_> = frames(&stream, words)
        .map(|frame| frame.map(|it| it.len()))
        .collect();
    assert_eq!(found, [Ok(40), Err(Error::TRUNCATED.at(2, 40))]);
}

/// A reader that gives at most `most` bytes at a time.
struct Slowly<'a> {
    bytes: &'a [u8],
    most: usize,
}

impl std::io::Read for Slowly<'_> {
    fn read(&mut self, to: &mut [u8]) -> std::io::Result<usize> {
        let count = self.most.min(to.len());
        std::io::Read::read(&mut self.bytes, &mut to[..count])
    }
}

#[test]
fn frames_of_a_reader() -> std::io::Result<()> {
    let stream = [bytes_of(ZERO_WORD), bytes_of(SHARED)].concat();
    for most in 1..=stream.len() {
        let bytes = stream.as_slice();
        let mut frames = FrameReader::new(Slowly { bytes, most }, Limits::default().words);
        for (message, byte, size) in [(1, 0, 40), (2, 40, 48)] {
            let frame = frames.next_frame()?.expect("a frame");
            assert_eq!((frame.message, frame.byte), (message, byte));
            assert_eq!(*frame, stream[byte as usize..][..size]);
        }
        assert_eq!(frames.next_frame()?, None);
    }
    for end in 1..stream.len() {
        let mut frames = FrameReader::new(&stream[..end], Limits::default().words);
        if end > 40 {
            frames.next_frame()?;
        }
        match frames.next_frame() {
            Ok(found) => assert!(end == 40 && found.is_some()),
            Err(error) => assert!(error.to_string().contains("Truncated")),
        }
    }
    let table = [0, 0, 0, 0, 5, 0, 0, 0];
    let refused = FrameReader::new(&table[..], 4).next_frame().unwrap_err();
    assert!(refused
        .to_string()
        .starts_with("message 1 at byte 0: MessageTooLong"));
    Ok(())
}

/// The words of a row between commas.
fn parts_of(digits: &str) -> Vec<Vec<u8>> {
    match digits {
        "-" => Vec::new(),
        _ => digits.split(',').map(bytes_of).collect(),
    }
}

#[test]
fn frames_of_a_packed_reader() -> Tested {
    let file = fs::read_to_string(STREAMS)?;
    let rows = file.lines().filter(|line| !line.starts_with('#'));
    assert_eq!(rows.clone().count(), 18);
    for row in rows {
        let [name, packed, wanted, end] = row.split(' ').collect::<Vec<_>>()[..] else {
            return Err(row.into());
        };
        let (packed, wanted) = (parts_of(packed), parts_of(wanted));
        let stream = packed.concat();
        for most in [1, 2, 7, usize::MAX] {
            let bytes = stream.as_slice();
            let mut frames =
                PackedFrameReader::new(Slowly { bytes, most }, Limits::default().words);
            let (mut byte, mut taken) = (0, 0);
            for (number, frame) in wanted.iter().enumerate() {
                let found = frames.next_frame()?.expect(name);
                assert_eq!(
                    (found.message, found.byte, found.bytes),
                    (number as u64 + 1, byte, &frame[..])
                );
                byte += frame.len() as u64;
                taken += packed[number].len() as u64;
                assert!(
                    most != usize::MAX || frames.packed_bytes() == taken,
                    "{name}"
                );
            }
            let message = wanted.len() + 1;
            let said = match frames.next_frame() {
                Ok(found) => {
                    assert_eq!(found, None, "{name}");
                    String::from("Done")
                }
                Err(error) => error.to_string(),
            };
            let start = match end {
                "Done" => String::from(end),
                _ => format!("message {message} at byte {byte}: {end}: "),
            };
            assert!(said.starts_with(&start), "{name}: {said}");
        }
    }
    Ok(())
}

#[test]
fn words_beside_a_frame() {
    // canonical words of a struct of two numbers, 2^32 and 42, given where a frame is expected: they are read as a frame of two
    // words, which hold a struct of the number 42
    let stored = bytes_of("000000000200000000000000010000002a00000000000000");
    let limits = Limits::default();
    assert_eq!(words::canonical_words(&stored, limits), Ok(stored.clone()));
    assert_eq!(
        canonical_words(&stored, limits),
        Ok(bytes_of("00000000010000002a00000000000000"))
    );
}

#[test]
fn a_vector_that_is_used_again() {
    let limits = Limits::default();
    let mut to = b"front".to_vec();
    assert_eq!(
        canonical_words_into(&bytes_of(SHARED), limits, &mut to),
        Ok(56)
    );
    assert_eq!(to, [b"front".as_slice(), &bytes_of(SHARED_FLAT)].concat());
    to.clear();
    let room = to.capacity();
    assert_eq!(
        canonical_words_into(&bytes_of(ZERO_WORD), limits, &mut to),
        Ok(24)
    );
    assert_eq!((to.capacity(), &to), (room, &bytes_of(ZERO_WORD_FLAT)));
    assert_eq!(
        canonical_words_into(&[0; 7], limits, &mut to),
        Err(Error::TRUNCATED)
    );
    assert_eq!(to, bytes_of(ZERO_WORD_FLAT));
}

#[test]
fn bytes_in_any_container() {
    let frame = bytes_of(ZERO_WORD);
    let limits = Limits::default();
    let wanted = Ok(bytes_of(ZERO_WORD_FLAT));
    assert_eq!(canonical_words(frame.as_slice(), limits), wanted);
    assert_eq!(
        canonical_words(std::rc::Rc::<[u8]>::from(frame.clone()), limits),
        wanted
    );
    assert_eq!(
        words::canonical_words(bytes_of(ZERO_WORD_FLAT), limits),
        wanted
    );
    assert_eq!(canonical_words(frame, limits), wanted);
}

#[test]
fn packed_bytes() -> Tested {
    let text = fs::read_to_string(PACKED)?;
    let (mut count, mut to) = (0, b"front".to_vec());
    for line in text.lines().filter(|line| !line.starts_with('#')) {
        let [name, packed, wanted] = line
            .split(' ')
            .collect::<Vec<_>>()
            .try_into()
            .map_err(|_| format!("not three words: {line}"))?;
        let wanted = match wanted {
            "Truncated" => Err(Error::TRUNCATED),
            digits => Ok(bytes_of(digits)),
        };
        let packed = bytes_of(packed);
        assert_eq!(unpack(&packed, 256), wanted, "{name}");
        to.truncate(5);
        let written = unpack_into(&packed, 256, &mut to);
        assert_eq!(written.is_ok(), wanted.is_ok(), "{name}");
        assert_eq!(to[..5], *b"front", "{name}");
        assert_eq!(to[5..], wanted.unwrap_or_default(), "{name}");
        assert_eq!(to.len(), 5 + written.unwrap_or(0), "{name}");
        count += 1;
    }
    assert_eq!(count, 22);
    Ok(())
}

#[test]
fn packed_messages() -> Tested {
    // three messages by `capnp convert binary:packed`
    let limits = Limits::default();
    let stream = unpack(
        bytes_of("10021001012a10021001012a10021001012a"),
        limits.words,
    )?;
    let words: Result<Vec<_>, _> = frames(&stream, limits.words)
        .map(|frame| canonical_words(frame?, limits))
        .collect();
    assert_eq!(
        words,
        Ok(vec![bytes_of("00000000010000002a00000000000000"); 3])
    );
    let zeros = [0_u8, 255].repeat(40_000);
    assert_eq!(unpack(&zeros[..200], 25_600), Ok(vec![0; 8 * 25_600]));
    assert_eq!(unpack(&zeros[..200], 25_599), Err(Error::MESSAGE_TOO_LONG));
    assert_eq!(unpack(&zeros, limits.words), Err(Error::MESSAGE_TOO_LONG));
    Ok(())
}

#[test]
fn bytes_behind_a_frame_cost_nothing() {
    let mut stream = bytes_of(ZERO_WORD);
    stream.resize(64 << 20, 0);
    let start = std::time::Instant::now();
    for _ in 0..2000 {
        let made = canonical_words(&stream, Limits::default());
        assert!(made.is_ok_and(|it| it.capacity() < 64));
    }
    assert!(start.elapsed().as_secs() < 5);
}

#[test]
fn errors_say_what_and_where() {
    let error: Box<dyn std::error::Error + Send + Sync> = Error::TRUNCATED.into();
    assert_eq!(
        error.to_string(),
        "Truncated: the bytes end inside a frame or a packed word"
    );
    assert_eq!(
        Error::TRUNCATED.at(2, 40).to_string(),
        "message 2 at byte 40: Truncated: the bytes end inside a frame or a packed word"
    );
    let error = std::io::Error::from(Error::READ_LIMIT_EXCEEDED.at(1, 0));
    assert_eq!(error.kind(), std::io::ErrorKind::InvalidData);
    let many =
        "message 1 at byte 0: TooManySegments: the frame has more than 512 segments; they look like ";
    for (digits, wanted) in [
        ("1f8b080000000000", "gzip"),
        ("28b52ffd24009900", "zstd"),
        ("425a683931415926", "bzip2"),
        ("fd377a585a000004", "xz"),
        ("504b030414000000", "a zip archive"),
        ("2869642031290a20", "text"),
        ("fcffffff00000000", "raw canonical words"),
        ("10021001012a", "packed messages"),
    ] {
        let bytes = bytes_of(digits);
        assert_eq!(looks_like(&bytes), Some(wanted));
        let refused = frames(&bytes, 8).next().unwrap().unwrap_err();
        assert_eq!(refused.to_string(), format!("{many}{wanted}"));
    }
    assert_eq!(looks_like(&bytes_of(ZERO_WORD)), None);
}

#[test]
fn errors_have_their_names() {
    assert_eq!(format!("{:?}", Error::TRUNCATED), "Error(19 Truncated)");
    assert_eq!(Error::from(19), Error::TRUNCATED);
    assert_eq!(Error::from(1_000_000).name(), "");
    for (error, name) in [
        (Error::NO_MESSAGE, "NoMessage"),
        (Error::SEGMENT_IS_NOT_WHOLE_WORDS, "SegmentIsNotWholeWords"),
        (Error::TOO_MANY_SEGMENTS, "TooManySegments"),
        (Error::MESSAGE_TOO_LONG, "MessageTooLong"),
        (Error::ALLOCATION_FAILED, "AllocationFailed"),
        (
            Error::CANNOT_CREATE_A_CANONICAL_MESSAGE_WITH_A_CAPABILITY,
            "CannotCreateACanonicalMessageWithACapability",
        ),
        (
            Error::CANT_HANDLE_NON_STRUCT_INLINE_COMPOSITE,
            "CantHandleNonStructInlineComposite",
        ),
        (
            Error::INLINE_COMPOSITE_LISTS_ELEMENTS_OVERRUN_ITS_WORD_COUNT,
            "InlineCompositeListsElementsOverrunItsWordCount",
        ),
        (
            Error::INLINE_COMPOSITE_LISTS_OF_NON_STRUCT_TYPE_ARE_NOT_SUPPORTED,
            "InlineCompositeListsOfNonStructTypeAreNotSupported",
        ),
        (Error::INVALID_SEGMENT_ID, "InvalidSegmentId"),
        (
            Error::MALFORMED_DOUBLE_FAR_POINTER,
            "MalformedDoubleFarPointer",
        ),
        (
            Error::MESSAGE_CONTAINS_OUT_OF_BOUNDS_POINTER,
            "MessageContainsOutOfBoundsPointer",
        ),
        (
            Error::MESSAGE_IS_TOO_DEEPLY_NESTED,
            "MessageIsTooDeeplyNested",
        ),
        (
            Error::MESSAGE_IS_TOO_DEEPLY_NESTED_OR_CONTAINS_CYCLES,
            "MessageIsTooDeeplyNestedOrContainsCycles",
        ),
        (Error::MESSAGE_TOO_LARGE, "MessageTooLarge"),
        (Error::NESTING_LIMIT_EXCEEDED, "NestingLimitExceeded"),
        (Error::NO_SUCH_PLACE, "NoSuchPlace"),
        (Error::READ_LIMIT_EXCEEDED, "ReadLimitExceeded"),
        (Error::UNKNOWN_POINTER_TYPE, "UnknownPointerType"),
    ] {
        assert_eq!(error.name(), name);
        assert!(!error.text().contains("doesn't know"));
    }
}

#[test]
fn parts_are_copied() {
    let (frame, limits) = (bytes_of(SHARED), Limits::default());
    let text = bytes_of("010000008200000061626364656667686162636465666700");
    for path in [[0], [1]] {
        assert_eq!(canonical_words_at(&frame, &path, limits), Ok(text.clone()));
        assert_eq!(
            digest_at(&frame, &path, limits),
            words::digest(&text, limits)
        );
        assert_eq!(size_at(&frame, &path, limits).map(|size| size.words), Ok(2));
    }
    assert_eq!(
        canonical_words_at(&frame, &[], limits),
        Ok(bytes_of(SHARED_FLAT))
    );
    for path in [&[2][..], &[0, 0], &[u32::MAX]] {
        let nowhere = Error::NO_SUCH_PLACE;
        assert_eq!(canonical_words_at(&frame, path, limits), Err(nowhere));
        assert_eq!(digest_at(&frame, path, limits), Err(nowhere));
        assert_eq!(size_at(&frame, path, limits).err(), Some(nowhere));
    }
}

/// What the calls for a part of a message give: its words, their digest, and its size.
type Part = (
    Result<Vec<u8>, Error>,
    Result<[u8; 32], Error>,
    Result<Size, Error>,
);

/// The part of a frame, of its segments, and of the words of its only segment.
fn parts_at(frame: &[u8], path: &[u32]) -> Vec<Part> {
    let limits = Limits::default();
    let parts = segments_in(frame);
    let mut found = vec![
        (
            canonical_words_at(frame, path, limits),
            digest_at(frame, path, limits),
            size_at(frame, path, limits),
        ),
        (
            segments::canonical_words_at(&parts, path, limits),
            segments::digest_at(&parts, path, limits),
            segments::size_at(&parts, path, limits),
        ),
    ];
    if let [it] = parts[..] {
        found.push((
            words::canonical_words_at(it, path, limits),
            words::digest_at(it, path, limits),
            words::size_at(it, path, limits),
        ));
    }
    found
}

#[test]
fn parts() -> Tested {
    let text = fs::read_to_string(PARTS)?;
    let mut count = 0;
    for line in text.lines().filter(|line| !line.starts_with('#')) {
        let [name, frame, path, wanted, flat, hash] = line
            .split(' ')
            .collect::<Vec<_>>()
            .try_into()
            .map_err(|_| format!("not six words: {line}"))?;
        let place = format!("{name} {path}");
        let path = path
            .split_terminator(['.', '-'])
            .filter(|it| !it.is_empty())
            .map(str::parse)
            .collect::<Result<Vec<u32>, _>>()?;
        for (copied, hashed, measured) in parts_at(&bytes_of(frame), &path) {
            let name = answer(copied.clone(), |_| "Done".into());
            assert_eq!(name, wanted, "{place}");
            assert_eq!(copied.unwrap_or_default(), bytes_of(flat), "{place}");
            assert_eq!(answer(hashed, |_| "Done".into()), wanted, "{place}");
            assert_eq!(
                hashed.map(Vec::from).unwrap_or_default(),
                bytes_of(hash),
                "{place}"
            );
            assert_eq!(answer(measured, |_| "Done".into()), wanted, "{place}");
            let words = measured.map_or(0, |size| size.words);
            assert!(8 * words + 8 >= bytes_of(flat).len() as u64, "{place}");
        }
        count += 1;
    }
    assert_eq!(count, 70);
    Ok(())
}

#[test]
fn reasons_have_their_texts() {
    for (reason, text) in [
        (Reason::SEGMENT_COUNT, "a number of segments other than one"),
        (Reason::NO_POINTER, "no word where a pointer should be"),
        (Reason::FAR_POINTER, "a far pointer"),
        (Reason::CAPABILITY, "a capability"),
        (Reason::UNKNOWN_POINTER, "a pointer of an unknown kind"),
        (
            Reason::EMPTY_STRUCT_PLACE,
            "a pointer to an empty struct with an offset other than -1",
        ),
        (
            Reason::OBJECT_PLACE,
            "a pointer to an object that isn't directly next in order",
        ),
        (Reason::PADDING, "a list whose padding isn't zero"),
        (
            Reason::DATA_SECTION,
            "a data section whose last word is zero",
        ),
        (
            Reason::POINTER_SECTION,
            "a pointer section whose last pointer is null",
        ),
        (
            Reason::ELEMENT_WORDS,
            "a list of structs whose pointer claims more words than its elements take",
        ),
        (
            Reason::ELEMENT_DATA,
            "a list of structs with more data words than any element needs",
        ),
        (
            Reason::ELEMENT_POINTERS,
            "a list of structs with more pointers than any element needs",
        ),
        (Reason::WORDS_BEHIND, "words after the value"),
    ] {
        assert_eq!(reason.to_string(), text);
    }
}

/// A struct of one data word and two pointers. The second pointer leads out of the segment.
#[test]
fn where_a_message_is_broken() -> Tested {
    let words = bytes_of("0000000001000200070000000000000000000000000000009001000001000000");
    let frame = framed(&words);
    let limits = Limits::default();
    let reads: [(Reading, fn(&Vec<u8>, Limits) -> Result<(), Error>); 3] = [
        (Reading::Value, |it, limits| check_value(it, limits)),
        (Reading::Canonical, |it, limits| {
            canonical_words(it, limits).map(drop)
        }),
        (Reading::Size, |it, limits| size(it, limits).map(drop)),
    ];
    for (reading, call) in reads {
        let broken = locate(&frame, reading, limits)?.ok_or("no pointer")?;
        assert_eq!((broken.segment, broken.word), (0, 3));
        assert_eq!(call(&frame, limits), Err(broken.error));
        assert_eq!(
            segments::locate(&[&words], reading, limits),
            Ok(Some(broken))
        );
        assert_eq!(words::locate(&words, reading, limits), Ok(Some(broken)));
        assert_eq!(
            broken.to_string(),
            "MessageContainsOutOfBoundsPointer at segment 0, word 3: a pointer points outside its segment"
        );
    }
    assert_eq!(
        locate(bytes_of(ZERO_WORD), Reading::Value, limits),
        Ok(None)
    );
    assert_eq!(
        locate(&frame[..20], Reading::Value, limits),
        Err(Error::TRUNCATED)
    );
    Ok(())
}

/// A canonical message of so many structs, each in the one before: each word is a pointer to a struct that has the next
/// word as its pointer.
fn chain(levels: usize) -> Vec<u8> {
    let mut words = [0, 0, 0, 0, 0, 0, 1, 0].repeat(levels - 1);
    words.extend([0xfc, 0xff, 0xff, 0xff, 0, 0, 0, 0]);
    words
}

/// Without a limit on levels, each of these calls would take 190 MB of stack, and end the process.
#[test]
fn no_number_of_levels_overflows_the_stack() {
    let (words, last) = (chain(300_000), chain(1024));
    let (frame, mut limits) = (framed(&words), Limits::new(i32::MAX, u64::MAX));
    let too_deep = Error::MESSAGE_IS_TOO_DEEPLY_NESTED_OR_CONTAINS_CYCLES;
    for nesting in [i32::MAX, 300_000, 1025] {
        limits.nesting = nesting;
        assert_eq!(canonical_copy(&frame, limits), Err(too_deep));
        assert_eq!(canonical_words(&frame, limits), Err(too_deep));
        assert_eq!(digest(&frame, limits), Err(too_deep));
        assert_eq!(canonical_words_at(&frame, &[0], limits), Err(too_deep));
        assert_eq!(digest_at(&frame, &[0], limits), Err(too_deep));
        assert_eq!(check(&frame, limits), Err(too_deep));
        assert!(!is_canonical(&frame, limits));
        assert_eq!(check_value(&frame, limits), Err(too_deep));
        let measured = Err(Error::MESSAGE_IS_TOO_DEEPLY_NESTED);
        assert_eq!(size(&frame, limits), measured);
        assert_eq!(size_at(&frame, &[0], limits), measured);
        let broken = locate(&frame, Reading::Value, limits).unwrap().unwrap();
        assert_eq!((broken.error, broken.word), (too_deep, 1024));
        let walked = walk(&frame, 2000, limits).unwrap();
        assert_eq!((walked.count, walked.broken), (1024, Some(broken)));
        assert_eq!(words::canonical_words(&words, limits), Err(too_deep));
        assert_eq!(segments::digest(&[&words], limits), Err(too_deep));
        assert_eq!(words::canonical_words(&last, limits).as_ref(), Ok(&last));
        assert_eq!(words::check(&last, limits), Ok(None));
    }
    limits.nesting = 1023;
    assert_eq!(words::canonical_words(&last, limits), Err(too_deep));
    assert_eq!(Limits::MAX_NESTING, 1024);
}

fn check_value(frame: &[u8], limits: Limits) -> Result<(), Error> {
    capnp_canonical::validate(frame, limits).map(drop)
}

#[test]
fn version_is_of_this_crate() {
    let numbers: Vec<u32> = env!("CARGO_PKG_VERSION")
        .split('.')
        .map(|number| number.parse().unwrap())
        .collect();
    assert_eq!(version() / 10000, numbers[0]);
    assert!(version() >= numbers[0] * 10000 + numbers[1] * 100);
}

/// Each pointer to the text has an entry. A broken pointer ends the list.
#[test]
fn objects_of_a_message() -> Tested {
    let mut frame = bytes_of(SHARED);
    let limits = Limits::default();
    let found = walk(&frame, 100, limits)?;
    let is = |it: &Object| {
        (
            it.kind,
            it.parent,
            it.pointer_word,
            it.word,
            it.count,
            it.pointers,
        )
    };
    let wanted = [
        (Kind::Struct, None, 0, 1, 0, 2),
        (Kind::ListOfBytes, Some(0), 1, 3, 16, 0),
        (Kind::ListOfBytes, Some(0), 2, 3, 16, 0),
    ];
    assert_eq!(found.objects.iter().map(is).collect::<Vec<_>>(), wanted);
    assert_eq!((found.count, found.broken), (3, None));
    assert_eq!(words::walk(&frame[8..], 100, limits)?, found);
    assert_eq!(segments::walk(&[&frame[8..]], 100, limits)?, found);
    let few = walk(&frame, 1, limits)?;
    assert_eq!((few.objects, few.count), (found.objects[..1].to_vec(), 3));
    // the second pointer leads out of the segment
    frame[24] = 0x41;
    let broken = walk(&frame, 100, limits)?;
    assert_eq!(broken.objects, found.objects[..2]);
    let pointer = broken.broken.ok_or("a broken pointer")?;
    assert_eq!(
        (pointer.error, pointer.word),
        (Error::MESSAGE_CONTAINS_OUT_OF_BOUNDS_POINTER, 2)
    );
    assert_eq!(walk(&frame[..20], 100, limits), Err(Error::TRUNCATED));
    Ok(())
}
