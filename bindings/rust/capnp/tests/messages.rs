//! Messages as the crate `capnp` has them, beside its own canonical form.
#![allow(deprecated)]
use capnp::message::{Builder, Reader, ReaderOptions, SegmentArray};
use capnp_canonical::{Error, Limits};
use capnp_canonical_capnp::{
    canonical_copy, canonical_words, canonical_words_into, canonical_words_of,
    canonical_words_of_reader, check, digest, digest_with, digest_with_at, equal, is_canonical,
    limits, size, ValueError,
};

/// The ten messages of the library's tests: NAME FRAME COPY FLAT CHECK SIZE DIGEST.
const MESSAGES: &str = include_str!("../../../../tests/library/rows/messages.txt");

/// Digests of a prefix and words: NAME FRAME PATH PREFIX DIGEST PACKED.
const PREFIXES: &str = include_str!("../../tests/prefixes.txt");

fn bytes_of(digits: &str) -> Vec<u8> {
    let digits = digits.trim_matches('-');
    (0..digits.len())
        .step_by(2)
        .map(|at| u8::from_str_radix(&digits[at..at + 2], 16).unwrap())
        .collect()
}

#[test]
fn messages_that_are_read() {
    let options = ReaderOptions::new();
    let mut count = 0;
    for line in MESSAGES.lines().filter(|line| !line.starts_with('#')) {
        let [name, frame, copy, flat, checked, _, hash] = line.split(' ').collect::<Vec<_>>()[..]
        else {
            panic!("not seven words: {line}");
        };
        let frame = bytes_of(frame);
        let Ok(message) = capnp::serialize::read_message(&mut &frame[..], options) else {
            continue;
        };
        let copied = canonical_words_of_reader(&message, limits(&options));
        let segments = message.into_segments();
        let words = canonical_words(&segments, limits(&options));
        // capnp may find another reason first
        assert_eq!(copied.ok(), words.clone().ok(), "{name}");
        match words {
            Ok(words) => {
                assert_eq!(words, bytes_of(flat), "{name}");
                let found = digest(&segments, limits(&options)).map(Vec::from);
                assert_eq!(found, Ok(bytes_of(hash)), "{name}");
            }
            Err(error) => assert_eq!(error.name(), copy, "{name}"),
        }
        assert_eq!(
            is_canonical(&segments, limits(&options)),
            checked == "yes",
            "{name}"
        );
        count += 1;
    }
    assert_eq!(count, 8);
}

#[test]
fn digests_after_a_prefix() {
    let options = ReaderOptions::new();
    let mut count = 0;
    for line in PREFIXES.lines().filter(|line| !line.starts_with('#')) {
        let [name, frame, path, prefix, hash, _] = line.split(' ').collect::<Vec<_>>()[..] else {
            panic!("not six words: {line}");
        };
        let (frame, prefix) = (bytes_of(frame), bytes_of(prefix));
        let path: Vec<u32> = path
            .split('.')
            .filter_map(|index| index.parse().ok())
            .collect();
        let segments = capnp::serialize::read_message(&mut &frame[..], options)
            .unwrap()
            .into_segments();
        let limits = limits(&options);
        let found = digest_with_at(&prefix, &segments, &path, limits).map(Vec::from);
        assert_eq!(found, Ok(bytes_of(hash)), "{name}");
        if path.is_empty() {
            let found = digest_with(&prefix, &segments, limits).map(Vec::from);
            assert_eq!(found, Ok(bytes_of(hash)), "{name}");
        }
        count += 1;
    }
    assert_eq!(count, 26);
}

/// A message with a list of two numbers, in segments of a few words.
fn numbers(first: u64, second: u64) -> Builder<capnp::message::HeapAllocator> {
    let allocator = capnp::message::HeapAllocator::new()
        .first_segment_words(1)
        .allocation_strategy(capnp::message::AllocationStrategy::FixedSize);
    let mut message = Builder::new(allocator);
    let root: capnp::any_pointer::Builder = message.init_root();
    let mut list = root.initn_as::<capnp::primitive_list::Builder<u64>>(2);
    list.set(0, first);
    list.set(1, second);
    message
}

#[test]
fn messages_that_are_compared() {
    let limits = Limits::default();
    let (one, same, other) = (numbers(5, 7), numbers(5, 7), numbers(5, 8));
    assert!(one.get_segments_for_output().len() > 1);
    assert_eq!(equal(&one, &same, limits), Ok(true));
    assert_eq!(equal(&one, &other, limits), Ok(false));
    // the words of the value, and what has the same words and one more
    let words = [1 | 21 << 32, 5, 7].map(u64::to_le_bytes).concat();
    let longer = [words.clone(), vec![0; 8]].concat();
    for bytes in [&words, &longer] {
        let segments = [&bytes[..]];
        let alone = SegmentArray::new(&segments);
        assert_eq!(equal(&one, &alone, limits), Ok(true));
        assert_eq!(equal(&alone, &other, limits), Ok(false));
    }
    let cut = [&words[..16]];
    let cut = SegmentArray::new(&cut);
    let outside = Err(Error::MESSAGE_CONTAINS_OUT_OF_BOUNDS_POINTER);
    assert_eq!(equal(&cut, &one, limits), outside);
    assert_eq!(equal(&one, &cut, limits), outside);
    let few = Limits::default().with_words(2);
    assert_eq!(
        equal(&one, &same, few),
        Err(Error::READ_LIMIT_EXCEEDED),
        "each within both limits"
    );
}

#[test]
fn a_message_that_is_built() {
    let mut message = Builder::new_default();
    let root: capnp::any_pointer::Builder = message.init_root();
    let mut list = root.initn_as::<capnp::primitive_list::Builder<u64>>(2);
    list.set(1, 7);
    let wanted = [1 | 21 << 32, 0, 7].map(u64::to_le_bytes).concat();
    let limits = Limits::default();
    let mut to = Vec::new();
    assert_eq!(canonical_words_into(&message, limits, &mut to), Ok(24));
    assert_eq!(to, wanted);
    assert_eq!(
        canonical_words(&*message.get_segments_for_output(), limits),
        Ok(wanted.clone())
    );
    assert_eq!(
        canonical_copy(&message, limits).map(|it| it[8..].to_vec()),
        Ok(wanted)
    );
    assert_eq!(check(&message, limits), Ok(None));
    assert_eq!(size(&message, limits).map(|it| it.words), Ok(2));
    assert_eq!(
        canonical_words(&message, Limits::new(64, 2)),
        Err(Error::READ_LIMIT_EXCEEDED)
    );
}

#[test]
fn values_that_are_copied_first() {
    let mut message = Builder::new_default();
    let root: capnp::any_pointer::Builder = message.init_root();
    let mut names = root.initn_as::<capnp::text_list::Builder>(2);
    names.set(0, "Ada");
    names.set(1, "Grace");
    let message = message.into_reader();
    let names: capnp::text_list::Reader = message.get_root().unwrap();
    let ada = [1 | 34 << 32, 0x61_6441].map(u64::to_le_bytes).concat();
    let limits = Limits::default();
    let of_text = canonical_words_of(|copy| copy.set_root(names.get(0)?), limits);
    assert_eq!(of_text.ok(), Some(ada));
    let of_list = canonical_words_of(|copy| copy.set_root(names), limits).unwrap();
    let of_all = canonical_words_of_reader(&message, limits).unwrap();
    assert_eq!(of_list, of_all);
    assert_eq!(
        Ok(of_all),
        canonical_words(&message.into_segments(), limits)
    );
}

#[test]
fn values_that_are_refused() {
    let refused = canonical_words_of(
        |_| Err(capnp::Error::failed("no".into())),
        Limits::default(),
    );
    assert!(matches!(&refused, Err(ValueError::Copy(error)) if error.to_string().contains("no")));

    let words = [1 << 32, 7].map(u64::to_le_bytes).concat();
    let segments = [&words[..]];
    let options = *ReaderOptions::new().traversal_limit_in_words(Some(6));
    let message = Reader::new(SegmentArray::new(&segments), options);
    let refused = canonical_words_of_reader(&message, Limits::new(64, 1)).unwrap_err();
    assert!(matches!(refused, ValueError::Refused(error) if error == Error::READ_LIMIT_EXCEEDED));
    let text = Error::READ_LIMIT_EXCEEDED.to_string();
    assert_eq!(refused.to_string(), text);
    assert!(capnp::Error::from(refused).to_string().contains(&text));
    // each copy counts against the limit of the reader
    let mut copies = 1;
    let refused = loop {
        match canonical_words_of_reader(&message, Limits::default()) {
            Ok(copy) => assert_eq!(copy, words),
            Err(refused) => break refused,
        }
        copies += 1;
    };
    assert!((2..=6).contains(&copies), "{copies}");
    assert!(matches!(refused, ValueError::Copy(_)));
}

#[test]
fn the_other_calls() {
    use capnp_canonical_capnp::{
        canonical_copy_into, canonical_words_at, digest_at, locate, size_at, validate, walk, Of,
    };
    // a struct of one data word and two pointers, to a text and out of the segment
    let words = [
        1 << 32 | 2 << 48,
        7,
        1 << 2 | 1 | 2 << 32 | 3 << 35,
        9 << 2 | 1 << 32,
        0x6161,
    ];
    let words = words.map(u64::to_le_bytes).concat();
    let segments = [&words[..]];
    let message = SegmentArray::new(&segments);
    let limits = Limits::default();
    let text = [1 | 2 << 32 | 3 << 35, 0x6161]
        .map(u64::to_le_bytes)
        .concat();
    assert_eq!(canonical_words_at(&message, &[0], limits), Ok(text.clone()));
    assert_eq!(size_at(&message, &[0], limits).map(|it| it.words), Ok(1));
    let alone = [&text[..]];
    let alone = SegmentArray::new(&alone);
    assert_eq!(digest_at(&message, &[0], limits), digest(&alone, limits));
    assert_eq!(validate(&alone, limits).map(|it| it.depth), Ok(1));
    let mut to = Vec::new();
    assert_eq!(canonical_copy_into(&alone, limits, &mut to), Ok(24));
    assert_eq!(to[8..], text);
    let refused = validate(&message, limits).unwrap_err();
    let place = refused.pointer().map(|it| (it.segment, it.word));
    assert_eq!(place, Some((0, 3)));
    let found = locate(&message, capnp_canonical::Reading::Value, limits);
    assert_eq!(found.map(|it| it.map(|it| it.word)), Ok(Some(3)));
    let objects = walk(&message, 9, limits).unwrap();
    assert_eq!(
        (objects.count, objects.broken.map(|it| it.word)),
        (2, Some(3))
    );
    assert_eq!(format!("{:?}", Of(&message)), "Of(1)");
}
