//! Limits and broken pointers: which refusal, where, and when it strikes.
use capnp_layout::{Builder, Limits, Lists, Message, Reason, StructSize};

const WHOLE: &[u8] = include_bytes!("data/all.bin");
const SEGMENTS: &[u8] = include_bytes!("data/all-segments.bin");

fn within(words: usize, depth: u16) -> Limits {
    Limits { words, depth }
}

#[test]
fn the_least_limits() {
    for bytes in [WHOLE, SEGMENTS] {
        let extent = Message::open(bytes, Limits::default())
            .unwrap()
            .validate()
            .unwrap();
        let (cost, depth) = (extent.cost.unwrap(), extent.value.depth as u16);
        assert_eq!(depth, 4, "the root, alls, texts of element 1, a text");
        let segments: Vec<&[u8]> = Message::open(bytes, Limits::default())
            .unwrap()
            .segments()
            .map(|it| &bytes[it.as_ptr() as usize - bytes.as_ptr() as usize..][..it.len()])
            .collect();
        let open = |limits| Message::from_segments(&segments, limits).unwrap();
        assert!(open(within(cost, depth)).sound().is_ok());
        let few = open(within(cost - 1, depth)).sound().unwrap_err();
        assert_eq!(
            (few.name(), few.is_limit(), few.path().is_some()),
            ("ReadLimitExceeded", true, true)
        );
        let flat = open(within(cost, depth - 1)).sound().unwrap_err();
        assert_eq!(
            (flat.name(), flat.is_limit(), flat.path()),
            (
                "MessageIsTooDeeplyNestedOrContainsCycles",
                true,
                Some("9.[1].2.[0]")
            )
        );
        // after the check, nothing is charged
        let message = open(within(cost, depth));
        let all = message.sound().unwrap();
        for _ in 0..50 {
            assert_eq!(
                all.get_structs(9)
                    .unwrap()
                    .at(1)
                    .get_list::<str>(2)
                    .unwrap()
                    .at(0)
                    .unwrap(),
                "deep"
            );
        }
        assert_eq!(all.canonical().unwrap(), message.canonical().unwrap());
    }
}

#[test]
fn lazy_readers_charge_the_message() {
    let message = Message::open(WHOLE, within(78, 64)).unwrap();
    let all = message.lazy().unwrap();
    let texts = || {
        all.get_structs(9)
            .and_then(|it| it.at(1).get_list::<str>(2))
            .and_then(|it| it.at(0).map(str::len))
    };
    let read = (0..10).take_while(|_| texts().is_ok()).count();
    assert_eq!(
        read, 2,
        "words: 1 and 13 for the root, then 27, 1 and 1 for each"
    );
    let error = texts().unwrap_err();
    assert_eq!(
        (error.name(), error.is_limit(), error.path()),
        ("ReadLimitExceeded", true, None)
    );
    assert!(message.lazy().is_err(), "what was charged stays charged");
    assert!(
        message.sound().is_ok(),
        "a check begins with all words of the limit"
    );
}

#[test]
fn many_pointers_to_one_list_cost_each_time() {
    let mut built = Builder::new();
    let mut root = built.init_root(StructSize {
        data_words: 0,
        pointers: 1,
    });
    let mut lists = root.init_list::<Lists<u64>>(0, 1000);
    lists.init(0, 1000).set(0, 1);
    let mut words = built.into_words().unwrap();
    for i in 1..1000usize {
        // pointer i + 3 of the segment: its list is i words nearer
        let at = 8 * (2 + i);
        let first = u64::from_le_bytes(words[16..24].try_into().unwrap());
        words[at..at + 8].copy_from_slice(&(first - 4 * i as u64).to_le_bytes());
    }
    let message = Message::from_words(&words, within(1_001_002, 64)).unwrap();
    assert!(message
        .sound()
        .unwrap()
        .get_list::<Lists<u64>>(0)
        .unwrap()
        .iter()
        .all(|it| it.unwrap().at(0) == 1));
    assert_eq!(message.validate().unwrap().cost, Some(1_001_002));
    let message = Message::from_words(&words, within(1_001_001, 64)).unwrap();
    let error = message.sound().unwrap_err();
    assert_eq!(
        (error.path(), error.place()),
        (Some("0.[999]"), Some((0, 1001)))
    );
    assert_eq!(error.to_string(), "pointer 0.[999]: ReadLimitExceeded");
}

#[test]
fn broken_pointers_have_a_path() {
    let broken = |word: usize, pointer: u64| {
        let mut bytes = WHOLE.to_vec();
        bytes[8 + 8 * word..][..8].copy_from_slice(&pointer.to_le_bytes());
        let message = Message::open(&bytes, Limits::default()).unwrap();
        let error = message.sound().unwrap_err();
        assert_eq!(error, message.validate().unwrap_err());
        assert_eq!(Some(&error), message.walk().err().as_ref());
        assert_eq!(error.place(), Some((0, word as u32)));
        (
            error.path().unwrap().to_owned(),
            error.name(),
            error.is_limit(),
        )
    };
    let outside = "MessageContainsOutOfBoundsPointer";
    assert_eq!(
        broken(0, 5 << 32 | 400 << 2),
        ("root".into(), outside, false)
    );
    assert_eq!(broken(11, 1 << 32 | 400 << 2), ("8".into(), outside, false));
    assert_eq!(
        broken(11, 7 << 32 | 2),
        ("8".into(), "InvalidSegmentId", false)
    );
    assert_eq!(broken(11, 7), ("8".into(), "UnknownPointerType", false));
}

#[test]
fn canonical_faults() {
    let message = Message::open(WHOLE, Limits::default()).unwrap();
    let fault = message.check().unwrap().unwrap();
    assert!(!message.is_canonical().unwrap());
    assert_eq!(fault.segment, 0);
    let words = message.canonical().unwrap();
    let canonical = Message::from_words(&words, Limits::default()).unwrap();
    assert_eq!(canonical.check(), Ok(None));
    assert_eq!(
        (canonical.canonical().unwrap(), canonical.digest().unwrap()),
        (words.clone(), message.digest().unwrap())
    );
    assert_eq!(
        include_bytes!("data/all-canonical.bin")[..],
        words,
        "as capnp convert binary:canonical writes it"
    );
    assert_eq!(
        8 * (canonical.size().unwrap().word_count as usize + 1),
        words.len()
    );
    assert_eq!(
        message.sound_pointer().unwrap().size().unwrap(),
        message.size().unwrap()
    );
    assert_eq!(
        message.sound_pointer().unwrap().validate().unwrap(),
        message.validate().unwrap().value
    );
    assert_eq!(
        message.sound().unwrap().size().unwrap(),
        message.size().unwrap()
    );
}

#[test]
fn walks() {
    let message = Message::open(WHOLE, Limits::default()).unwrap();
    let objects = message.walk().unwrap();
    assert_eq!(
        (objects[0].kind, objects[0].parent, objects[0].word),
        (capnp_layout::STRUCT, capnp_layout::NO_PARENT, 1)
    );
    assert_eq!((objects[0].data_words, objects[0].pointers), (2, 11));
    let mut few = [objects[0]; 3];
    assert_eq!(message.walk_into(&mut few).unwrap(), objects.len());
    assert_eq!(few[..], objects[..3]);
    assert_eq!(objects[1].kind, 3, "numbers, a list of two bytes");
}

#[test]
fn names_and_numbers_of_refusals() {
    use capnp_layout::{ErrorKind, FrameError};
    let rows = [
        (Reason::SegmentIsNotWholeWords, "SegmentIsNotWholeWords", 3),
        (Reason::Frame(FrameError::NoSegments), "NoSegments", 16),
        (
            Reason::Frame(FrameError::TooManySegments(513)),
            "TooManySegments(513)",
            17,
        ),
        (
            Reason::Frame(FrameError::AllocationFailed),
            "AllocationFailed",
            22,
        ),
        (
            Reason::Layout(ErrorKind::AllocationFailed),
            "AllocationFailed",
            32,
        ),
        (
            Reason::Layout(ErrorKind::InvalidSegmentId(7)),
            "InvalidSegmentId(7)",
            44,
        ),
        (
            Reason::Layout(ErrorKind::UnknownPointerType),
            "UnknownPointerType",
            66,
        ),
        (Reason::TextIsNotUtf8, "TextIsNotUtf8", 128),
        (Reason::TrailingBytes(5), "TrailingBytes(5)", 129),
        (Reason::TooManyElements(9), "TooManyElements(9)", 130),
    ];
    for (reason, text, number) in rows {
        assert_eq!(
            (reason.to_string().as_str(), reason.number()),
            (text, number)
        );
        assert_eq!(reason.name(), text.split('(').next().unwrap());
    }
}

/// A message of this many structs, each in the one before.
fn nested(levels: usize) -> Vec<u8> {
    // each word is a pointer to a struct of the next word, and the last one to an empty struct
    let mut words = vec![1 << 48; levels];
    words[levels - 1] = 0xffff_fffc_u64;
    words.iter().flat_map(|it| it.to_le_bytes()).collect()
}

#[test]
fn no_limit_ends_the_process() {
    type Call = fn(&Message<'_>) -> Result<(), capnp_layout::Error>;
    let calls: [Call; 8] = [
        |it| it.sound().map(drop),
        |it| it.canonical().map(drop),
        |it| it.digest().map(drop),
        |it| it.digest_with(&[1]).map(drop),
        |it| it.check().map(drop),
        |it| it.size().map(drop),
        |it| it.validate().map(drop),
        |it| it.walk().map(drop),
    ];
    let all = move || {
        for (levels, depth, fits) in [
            (1024, 1024, true),
            (1024, u16::MAX, true),
            (1025, u16::MAX, false),
            (60_000, u16::MAX, false),
            (60_000, 1025, false),
        ] {
            let bytes = nested(levels);
            let message = Message::from_words(&bytes, within(1 << 20, depth)).unwrap();
            for call in calls {
                match call(&message) {
                    Ok(()) => assert!(fits, "{levels} levels"),
                    Err(error) => assert!(!fits && error.is_limit(), "{levels} levels: {error}"),
                }
            }
            assert_eq!(format!("{message:?}").contains("Nest"), !fits);
        }
    };
    // tests are built without optimization
    let thread = std::thread::Builder::new().stack_size(8 << 20).spawn(all);
    thread.unwrap().join().unwrap();
}
