//! Altered messages: readers refuse, and never panic. What is sound is never refused for a limit or
//! a broken pointer.
use capnp_layout::{
    Builder, ElementSize, ErrorKind, FrameError, Limits, Lists, Message, Meter, Pointer, Pointers,
    Reason, Structs, Target,
};

const MESSAGES: [&[u8]; 2] = [
    include_bytes!("data/all.bin"),
    include_bytes!("data/all-segments.bin"),
];

/// A generator of numbers: xorshift.
struct Random(u64);

impl Random {
    fn below(&mut self, n: usize) -> usize {
        self.0 ^= self.0 << 13;
        self.0 ^= self.0 >> 7;
        self.0 ^= self.0 << 17;
        (self.0 % n as u64) as usize
    }

    /// Changes a few bits, bytes or words, mostly in pointers.
    fn alter(&mut self, bytes: &mut [u8]) {
        for _ in 0..=self.below(4) {
            let at = self.below(bytes.len());
            match self.below(4) {
                0 => bytes[at] ^= 1 << self.below(8),
                1 => bytes[at] = self.below(256) as u8,
                2 => bytes[at / 8 * 8] ^= 1 << self.below(5),
                _ => {
                    let from = self.below(bytes.len() / 8) * 8;
                    bytes.copy_within(from..from + 8, at / 8 * 8);
                }
            }
        }
    }
}

/// Reads all that a pointer leads to as what it is, and as what it isn't. Returns the refusals of
/// the first kind.
fn read<M: Meter>(from: Pointer<'_, M>, refused: &mut Vec<Reason>) {
    let (_, _, _, _) = (
        from.as_text().is_ok(),
        from.as_list::<u32>().is_ok(),
        from.as_capability().is_ok(),
        from.as_list::<Lists<u8>>().is_ok(),
    );
    match from.target() {
        Ok(Target::Struct(_)) => match from.as_struct() {
            Ok(found) => (0..found.pointer_count())
                .for_each(|index| read(found.get_pointer(index.into()), refused)),
            Err(error) => refused.push(error.reason()),
        },
        Ok(Target::List {
            size: ElementSize::Pointer,
            len,
        }) => match from.as_list::<Pointers>() {
            Ok(list) => {
                assert_eq!(list.len(), len);
                list.iter().for_each(|it| read(it, refused));
            }
            Err(error) => refused.push(error.reason()),
        },
        Ok(Target::List {
            size: ElementSize::InlineComposite,
            len,
        }) => match from.as_list::<Structs>() {
            Ok(list) => {
                assert_eq!(list.len(), len);
                for it in list {
                    (0..it.pointer_count())
                        .for_each(|index| read(it.get_pointer(index.into()), refused));
                }
            }
            Err(error) => refused.push(error.reason()),
        },
        Ok(Target::List {
            size: ElementSize::Bit,
            ..
        }) => assert!(from
            .as_list::<bool>()
            .map_or(true, |it| it.iter().count() == it.len())),
        Ok(_) => {}
        Err(error) => refused.push(error.reason()),
    }
}

fn try_message(message: &Message<'_>) -> bool {
    let mut refused = Vec::new();
    let sound = message.sound_pointer();
    assert_eq!(sound.is_ok(), message.validate().is_ok());
    assert_eq!(sound.is_ok(), message.walk().is_ok());
    if let Ok(root) = sound {
        read(root, &mut refused);
        assert_eq!(refused, [], "of a sound message");
        assert_eq!(root.canonical().is_ok(), message.canonical().is_ok());
        assert_eq!(root.digest().ok(), message.digest().ok());
        let mut copy = Builder::new();
        copy.set_root_pointer(root);
        assert!(copy.refused().is_none());
        assert_eq!(
            copy.as_message().unwrap().canonical().ok(),
            message.canonical().ok()
        );
        assert!(format!("{root:?}").len() < 1_000_000);
    } else if let Err(error) = &sound {
        assert!(
            error.path().is_some()
                || error.reason() == Reason::Layout(ErrorKind::InvalidSegmentId(0)),
            "{error}"
        );
    }
    if let Ok(root) = message.lazy_pointer() {
        read(root, &mut refused);
        let _ = format!("{root:?}");
    }
    sound.is_ok()
}

fn run(count: usize) {
    let limits = Limits {
        words: 4000,
        depth: 16,
    };
    let mut random = Random(0x9e37_79b9_7f4a_7c15);
    let mut sound = 0;
    for n in 0..count {
        let mut bytes = MESSAGES[n % 2].to_vec();
        random.alter(&mut bytes);
        if let Ok(message) = Message::open(&bytes, limits) {
            sound += usize::from(try_message(&message));
        }
        let words = &bytes[8..];
        sound += usize::from(try_message(&Message::from_words(words, limits).unwrap()));
    }
    assert!(
        count / 10 < sound && sound < 2 * count,
        "{sound} of {count}"
    );
}

#[test]
fn altered_messages() {
    run(std::env::var("CAPNP_LAYOUT_MESSAGES").map_or(5_000, |it| it.parse().unwrap()));
}

#[test]
fn altered_packed_bytes() {
    let packed = include_bytes!("data/all-packed.bin");
    let mut random = Random(7);
    for _ in 0..5_000 {
        let mut bytes = packed.to_vec();
        let at = random.below(bytes.len());
        bytes[at] ^= 1 << random.below(8);
        match Message::open_packed(
            &bytes,
            Limits {
                words: 4000,
                depth: 16,
            },
        ) {
            Ok(message) => drop(try_message(&message)),
            Err(error) => assert!(
                matches!(
                    error.reason(),
                    Reason::TrailingBytes(_)
                        | Reason::Frame(
                            FrameError::Truncated
                                | FrameError::MessageTooLong(_)
                                | FrameError::TooManySegments(_)
                        )
                ),
                "{error}"
            ),
        }
    }
}
