//! Digests of a prefix and a message. The expected ones are those of Python's hashlib, over the
//! prefix and what `capnp convert binary:canonical` writes.
use capnp_layout::{Builder, ErrorKind, Limits, Message, Reason, StructSize};

const ALL: [&[u8]; 2] = [
    include_bytes!("data/all.bin"),
    include_bytes!("data/all-segments.bin"),
];

/// The bytes of an id.
const ID: [u8; 8] = 0x98808e9832e8bc18_u64.to_le_bytes();

/// `(id = 123, name = "Alice", phones = [(number = "555-1212", kind = 1), (number = "555-3434")])`
/// of `examples/person.capnp`.
fn short() -> Builder {
    let mut message = Builder::new();
    let mut person = message.init_root(StructSize {
        data_words: 1,
        pointers: 2,
    });
    let phone = StructSize {
        data_words: 1,
        pointers: 1,
    };
    // the phones come before the name, which isn't canonical
    let mut phones = person.init_structs(1, 2, phone);
    phones.at(0).set_text(0, "555-1212").set_u16(0, 1);
    phones.at(1).set_text(0, "555-3434");
    person.set_u32(0, 123).set_text(0, "Alice");
    message
}

/// `(id = 5, name = "xx..")`, with 5000 letters; canonical if there is one pointer.
fn long(pointers: u16) -> Builder {
    let mut message = Builder::new();
    let mut person = message.init_root(StructSize {
        data_words: 1,
        pointers,
    });
    person.set_u32(0, 5).set_text(0, &"x".repeat(5000));
    message
}

fn hex(digest: [u8; 32]) -> String {
    digest.iter().map(|byte| format!("{byte:02x}")).collect()
}

/// The prefixes: none, an id, a block of SHA-256, and more than that.
fn prefixes() -> [Vec<u8>; 4] {
    [vec![], ID.to_vec(), (0..64).collect(), (0..100).collect()]
}

fn compare(message: &Message<'_>, expected: [&str; 4]) {
    for (prefix, expected) in prefixes().iter().zip(expected) {
        let root = message.sound().unwrap();
        let pointer = message.sound_pointer().unwrap();
        for digest in [
            message.digest_with(prefix),
            root.digest_with(prefix),
            pointer.digest_with(prefix),
            message.lazy().unwrap().digest_with(prefix),
        ] {
            assert_eq!(hex(digest.unwrap()), expected);
        }
    }
    assert_eq!(hex(message.digest().unwrap()), expected[0]);
}

#[test]
fn digests_after_a_prefix() {
    for bytes in ALL {
        let message = Message::open(bytes, Limits::default()).unwrap();
        compare(
            &message,
            [
                "7aafedcb4cb6cfab58cd64f91c74779b79e1579dbd8f51c8d037856d9654d030",
                "b9f93701b2f7ac2706cdb1faafc61c19cc3f850c30d28d85d2973296b42fbc31",
                "fbdad10731791e31f084994c8ac502ffd8e724eb6f10ca032e81319392e24c8d",
                "23a74a4dbe5a60ce9d6971709204964b11fd58f9a865e88fc6d11ca8283980b4",
            ],
        );
    }
    for (canonical, pointers) in [(true, 1), (false, 2)] {
        let built = long(pointers);
        let message = built.as_message().unwrap();
        assert_eq!(message.is_canonical(), Ok(canonical));
        compare(
            &message,
            [
                "53932ae22e0a2f89a5461cfe4fea521852a02d538427ae03541c7d7cb4153e52",
                "c80a237ae8c63f61477d96b4eaa28749ff74258c4744dbfd71b648de75321074",
                "0b06f659e4002adc3c83162e255e18434623f406a449ac7de584f50988496445",
                "d8198dabdd3e7bda0f90e8d92fb702cdf3dc18c98d4749c2d173492cdf0a0724",
            ],
        );
    }
}

#[test]
fn digests_of_built_messages() {
    let expected = [
        "da2fc48326a4c1b50390cb8419ca3588708f2a6960fc89ceedf8c3a705664159",
        "7f73474dafbbf79878c2fbcee8e37635d336e3939bd5e7098d2efa80244a4f9e",
        "6d4ead2ae28a3762027170e57973f91df0ec24d161e4dcdfe326c4759b75e701",
        "f8b2791db6236e4114c96c30352da4a2ce6427b2171ae2d6d657bc5d971be84c",
    ];
    let built = short();
    assert_eq!(built.as_message().unwrap().is_canonical(), Ok(false));
    compare(&built.as_message().unwrap(), expected);
    for (prefix, expected) in prefixes().iter().zip(expected) {
        assert_eq!(hex(built.digest_with(prefix).unwrap()), expected);
    }
    assert_eq!(hex(built.digest().unwrap()), expected[0]);
}

#[test]
fn refusals() {
    // pointer 0 of the root leads out of the segment
    let mut words = long(1).into_words().unwrap();
    words[19] = 0x7f;
    let message = Message::from_words(&words, Limits::default()).unwrap();
    let error = message.digest_with(&ID).unwrap_err();
    assert_eq!(error, message.digest().unwrap_err());
    assert_eq!(error.path(), Some("0"));
    // the text has 627 words, and the root 2
    let frame = long(2).to_frame().unwrap();
    for (words, fits) in [(631, true), (629, false)] {
        let limits = Limits { words, depth: 64 };
        match Message::open(&frame, limits).and_then(|it| it.digest_with(&ID)) {
            Ok(_) => assert!(fits),
            Err(error) => assert!(!fits && error.is_limit(), "{error}"),
        }
    }
    let limits = Limits {
        words: 1000,
        depth: 1,
    };
    let message = Message::open(&frame, limits).unwrap();
    let error = message.digest_with(&ID).unwrap_err();
    assert!(error.is_limit(), "{error}");
    // a capability has no canonical words
    let mut built = Builder::new();
    built
        .init_root(StructSize {
            data_words: 0,
            pointers: 1,
        })
        .set_capability(0, 3);
    let error = built.digest_with(&ID).unwrap_err();
    assert_eq!(Err(error.clone()), built.digest());
    assert!(matches!(
        error.reason(),
        Reason::Layout(ErrorKind::CannotCreateACanonicalMessageWithACapability)
    ));
}
