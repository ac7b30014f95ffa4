//! Builds messages, and reads them again.
use capnp_layout::{
    Builder, ErrorKind, Limits, Lists, Message, Reason, StructBuilder, StructSize, Structs,
};
use std::panic::{catch_unwind, AssertUnwindSafe};

const SIZE: StructSize = StructSize {
    data_words: 2,
    pointers: 11,
};
const NONE: StructSize = StructSize {
    data_words: 0,
    pointers: 0,
};
const MOST: usize = (1 << 29) - 1;

fn build_all(message: &mut Builder) {
    let mut all = message.init_root(SIZE);
    all.init_list::<u16>(0, 3).fill([1, 2, 65535]);
    all.init_list::<f64>(1, 2).fill([1.5, -0.25]);
    let mut texts = all.init_list::<str>(2, 3);
    texts.set(0, "a");
    texts.set(1, "");
    texts.set(2, "ü");
    all.set_data(3, b"\x00\xff");
    let mut datas = all.init_list::<[u8]>(4, 2);
    datas.set(0, b"x");
    datas.set(1, b"yz");
    let mut nested = all.init_list::<Lists<u8>>(5, 3);
    nested.init(0, 2).fill([1, 2]);
    nested.init(1, 0);
    nested.init(2, 1).set(0, 3);
    all.init_struct(6, SIZE).set_i64(1, -7).set_bool(0, true);
    let mut bits = all.init_list::<bool>(7, 9);
    for index in [0, 2, 3, 6, 8] {
        bits.set(index, true);
    }
    let mut alls = all.init_structs(9, 2, SIZE);
    alls.at(0).set_i64(1, 1);
    alls.at(1).init_list::<str>(2, 1).set(0, "deep");
    all.set_i64(1, -1234567890123)
        .set_or(1, 2.5f32, 1.5)
        .set_text(10, "Zoë");
}

#[test]
fn the_same_message_as_capnp_encode_makes() {
    let mut message = Builder::new();
    build_all(&mut message);
    let theirs = Message::open(include_bytes!("data/all.bin"), Limits::default()).unwrap();
    assert_eq!(message.as_message().unwrap(), theirs);
    assert_eq!(
        message.canonical().unwrap(),
        include_bytes!("data/all-canonical.bin")
    );
    assert_eq!(message.digest().unwrap(), theirs.digest().unwrap());
    let frame = message.to_frame().unwrap();
    assert_eq!(Message::open(&frame, Limits::default()).unwrap(), theirs);
    let mut written = Vec::new();
    message.write(&mut written).unwrap();
    assert_eq!(written, frame);
    assert_eq!(message.words().unwrap(), &frame[8..]);
    let packed = message.to_packed().unwrap();
    assert!(packed.len() < frame.len());
    assert_eq!(
        Message::open_packed(&packed, Limits::default()).unwrap(),
        theirs
    );
    assert!(format!("{message:?}").starts_with("Builder(Struct { data: 0x"));
    assert_eq!(message.into_words().unwrap(), &frame[8..]);
}

#[test]
fn numbers_of_each_kind() {
    let mut message = Builder::default();
    let mut root = message.init_root(StructSize {
        data_words: 8,
        pointers: 0,
    });
    root.set_u8(0, u8::MAX)
        .set_i8(1, i8::MIN)
        .set_u16(1, 0x1234)
        .set_i16(2, i16::MIN)
        .set_bool(63, true);
    root.set_u32(2, u32::MAX - 1)
        .set_i32(3, i32::MIN)
        .set_u64(2, u64::MAX - 2)
        .set_i64(3, i64::MIN);
    root.set_f32(8, -0.0)
        .set_f64(5, f64::from_bits(0x7ff0_0000_0000_0001))
        .set_or(24, 7u16, 7)
        .set_or(25, 8u16, 7);
    assert_eq!(
        (
            root.get::<u8>(0),
            root.get::<i64>(3),
            root.get::<u16>(24),
            root.get_bool(63),
            root.get_bool(62)
        ),
        (255, i64::MIN, 0, true, false)
    );
    assert_eq!(
        (
            root.get::<u64>(8),
            root.get_bool(512),
            root.has(0),
            root.size().data_words
        ),
        (0, false, false, 8)
    );
    let message = message.as_message().unwrap();
    let root = message.sound().unwrap();
    assert_eq!(
        (
            root.get_u8(0),
            root.get_i8(1),
            root.get_u16(1),
            root.get_i16(2),
            root.get_bool(63)
        ),
        (255, -128, 0x1234, -32768, true)
    );
    assert_eq!(
        (
            root.get_u32(2),
            root.get_i32(3),
            root.get_u64(2),
            root.get_i64(3)
        ),
        (u32::MAX - 1, i32::MIN, u64::MAX - 2, i64::MIN)
    );
    assert_eq!(
        (root.get_f32(8).to_bits(), root.get_f64(5).to_bits()),
        (1 << 31, 0x7ff0_0000_0000_0001),
        "floats keep their bits"
    );
    assert_eq!(
        (
            root.get_or(24, 7u16),
            root.get_or(25, 7u16),
            root.get_or(26, 7u16)
        ),
        (7, 8, 7)
    );
}

#[test]
fn structs_that_are_there_are_changed() {
    let mut message = Builder::new();
    let small = StructSize {
        data_words: 1,
        pointers: 1,
    };
    message.edit_root(small).set_u64(0, 1).set_text(0, "kept");
    let mut root = message.edit_root(SIZE);
    assert_eq!(
        (
            root.size().pointers,
            root.get::<u64>(0),
            root.has(0),
            root.has(1)
        ),
        (11, 1, true, false)
    );
    root.edit_struct(1, small).set_u64(0, 2);
    root.edit_struct(1, SIZE).set_u64(1, 3);
    root.init_structs(2, 2, small).at(1).set_u64(0, 4);
    let mut list = root.edit_structs(2, SIZE);
    assert_eq!(list.len(), 2);
    list.at(1).set_u64(1, 5);
    assert!(root.edit_structs(3, small).is_empty());
    root.set_text(4, "gone").clear(4);
    root.reborrow().set_capability(5, 9);
    let read = message.as_message().unwrap();
    let root = read.sound().unwrap();
    assert_eq!(
        (
            root.get_text(0).unwrap(),
            root.get_struct(1).unwrap().get_u64(0),
            root.get_struct(1).unwrap().get_u64(1)
        ),
        ("kept", 2, 3)
    );
    let item = root.get_structs(2).unwrap().at(1);
    assert_eq!(
        (
            item.get_u64(0),
            item.get_u64(1),
            root.has(4),
            root.get_capability(5).unwrap()
        ),
        (4, 5, false, 9)
    );
    assert_eq!(
        message.canonical().unwrap_err().name(),
        "CannotCreateACanonicalMessageWithACapability"
    );
    assert_eq!(
        message.refused(),
        None,
        "a question that is refused leaves the message as it is"
    );
}

#[test]
fn copies() {
    let bytes = include_bytes!("data/all-segments.bin");
    let message = Message::open(bytes, Limits::default()).unwrap();
    let all = message.sound().unwrap();
    let mut copy = Builder::new();
    let mut root = copy.init_root(SIZE);
    root.set_struct(6, all)
        .set_list(9, all.get_structs(9).unwrap())
        .set_list(0, all.get_list::<u16>(0).unwrap());
    root.set_pointer(5, all.get_pointer(5))
        .set_pointer(2, message.lazy().unwrap().get_pointer(2));
    let read = copy.as_message().unwrap();
    let root = read.sound().unwrap();
    assert_eq!(root.get_struct(6).unwrap(), all);
    for index in [0, 2, 5, 9] {
        assert_eq!(root.get_pointer(index), all.get_pointer(index));
    }
    let mut whole = Builder::with_capacity(0);
    whole.set_root(all);
    assert_eq!(whole.as_message().unwrap(), message);
    whole.set_root_pointer(message.lazy_pointer().unwrap());
    assert_eq!(whole.as_message().unwrap(), message);
}

#[test]
fn lists_of_structs() {
    let mut message = Builder::new();
    let mut root = message.init_root(SIZE);
    let item = StructSize {
        data_words: 1,
        pointers: 0,
    };
    let mut list = root.init_structs(0, 3, item);
    let mut n = 0;
    while let Some(mut it) = list.next() {
        n += 1;
        it.set_u64(0, n);
    }
    assert!(list.get(2).is_some() && list.get(3).is_none() && !list.is_empty());
    root.init_structs(1, 3, item).fill([7, 8], |mut it, n| {
        it.set_u64(0, n);
    });
    root.init_list::<Lists<Structs>>(2, 1)
        .init_structs(0, 2, item)
        .at(1)
        .set_u64(0, 9);
    root.init_list::<()>(3, 5);
    let message = message.as_message().unwrap();
    let root = message.sound().unwrap();
    let numbers = |index| {
        root.get_structs(index)
            .unwrap()
            .iter()
            .map(|it| it.get_u64(0))
            .collect::<Vec<_>>()
    };
    assert_eq!((numbers(0), numbers(1)), (vec![1, 2, 3], vec![7, 8, 0]));
    assert_eq!(
        root.get_list::<Lists<Structs>>(2)
            .unwrap()
            .at(0)
            .unwrap()
            .at(1)
            .get_u64(0),
        9
    );
    assert_eq!(root.get_list::<()>(3).unwrap().len(), 5);
}

#[test]
fn memory_grows() {
    for count in [0, 1, 100, 10_000, 200_000] {
        let mut message = Builder::with_capacity(count);
        let mut list = message.init_root(SIZE).init_list::<u64>(0, count).len();
        assert_eq!(list, count);
        let mut texts = 0;
        while texts < count / 100 {
            message.edit_root(SIZE).set_text(1, "some text");
            texts += 1;
        }
        list = message
            .as_message()
            .unwrap()
            .sound()
            .unwrap()
            .get_list::<u64>(0)
            .unwrap()
            .iter()
            .filter(|it| *it == 0)
            .count();
        assert_eq!(list, count);
        assert_eq!(message.as_message().unwrap().segments().count(), 1);
    }
}

fn with_root<T>(change: impl FnOnce(&mut StructBuilder<'_>) -> T) -> (bool, Option<Reason>) {
    let mut message = Builder::new();
    let mut root = message.init_root(StructSize {
        data_words: 1,
        pointers: 2,
    });
    let fine = catch_unwind(AssertUnwindSafe(|| drop(change(&mut root)))).is_ok();
    (fine, message.refused().map(|it| it.reason()))
}

/// Each call whose core has a precondition, at the last index that meets it and at the first that
/// doesn't.
#[test]
fn fields_that_are_not_there_panic() {
    macro_rules! edges {
        ($($last:expr, $name:ident($($more:expr),*);)*) => {
            $(
                assert_eq!(with_root(|it| { it.$name($last, $($more),*); }), (true, None), "{}", stringify!($name));
                for beyond in [$last + 1, 1 << 32, usize::MAX] {
                    assert_eq!(with_root(|it| { it.$name(beyond, $($more),*); }), (false, None), "{}", stringify!($name));
                }
            )*
        };
    }
    let size = StructSize {
        data_words: 1,
        pointers: 1,
    };
    edges! {
        7, set_u8(1); 7, set_i8(1); 3, set_u16(1); 3, set_i16(1); 1, set_u32(1); 1, set_i32(1); 0, set_u64(1); 0, set_i64(1);
        1, set_f32(1.0); 0, set_f64(1.0); 63, set_bool(true); 3, set_or(1u16, 2);
        1, clear(); 1, set_text("text"); 1, set_data(b"data"); 1, set_capability(3);
        1, init_struct(size); 1, edit_struct(size); 1, init_structs(1, size); 1, edit_structs(size);
    }
    assert!(
        with_root(|it| {
            it.init_list::<u8>(1, 1);
        })
        .0 && !with_root(|it| {
            it.init_list::<u8>(2, 1);
        })
        .0
    );
    let source = Message::open(include_bytes!("data/all.bin"), Limits::default()).unwrap();
    let all = source.sound().unwrap();
    for (index, fine) in [(1, true), (2, false)] {
        assert_eq!(
            with_root(|it| {
                it.set_struct(index, all);
            })
            .0,
            fine
        );
        assert_eq!(
            with_root(|it| {
                it.set_list(index, all.get_structs(9).unwrap());
            })
            .0,
            fine
        );
        assert_eq!(
            with_root(|it| {
                it.set_pointer(index, all.get_pointer(0));
            })
            .0,
            fine
        );
    }
}

/// The getters of a builder, at the last field that is there and at the first that isn't.
#[test]
fn fields_that_are_not_there_are_zero() {
    let mut message = Builder::new();
    let mut root = message.init_root(StructSize {
        data_words: 1,
        pointers: 2,
    });
    root.set_u64(0, u64::MAX).set_text(1, "text");
    assert_eq!((root.get::<u8>(7), root.get::<u16>(3)), (255, 0xffff));
    assert_eq!((root.get::<i32>(1), root.get::<u64>(0)), (-1, u64::MAX));
    assert!(root.get_bool(63) && root.has(1) && !root.has(0));
    for beyond in [8, 1 << 32, usize::MAX] {
        assert_eq!((root.get::<u8>(beyond), root.get::<u16>(beyond)), (0, 0));
        assert_eq!((root.get::<i32>(beyond), root.get::<f64>(beyond)), (0, 0.0));
        assert!(!root.get_bool(8 * beyond.min(1 << 60)) && !root.has(beyond));
    }
    assert_eq!((root.get::<u16>(4), root.get::<u32>(2)), (0, 0));
    assert_eq!((root.get::<u64>(1), root.get_bool(64)), (0, false));
    assert!(!root.has(2) && !root.get_bool(usize::MAX));
    assert_eq!(message.refused(), None);
}

#[test]
fn elements_that_are_not_there_panic() {
    let size = StructSize {
        data_words: 1,
        pointers: 1,
    };
    for (index, fine) in [(2, true), (3, false), (1 << 32, false), (usize::MAX, false)] {
        assert_eq!(
            with_root(|it| it.init_list::<u16>(0, 3).set(index, 1)).0,
            fine
        );
        assert_eq!(
            with_root(|it| it.init_list::<bool>(0, 3).set(index, true)).0,
            fine
        );
        assert_eq!(
            with_root(|it| it.init_list::<str>(0, 3).set(index, "a")).0,
            fine
        );
        assert_eq!(
            with_root(|it| it.init_list::<[u8]>(0, 3).set(index, b"a")).0,
            fine
        );
        assert_eq!(
            with_root(|it| it.init_list::<Lists<u8>>(0, 3).init(index, 1).len()).0,
            fine
        );
        assert_eq!(
            with_root(|it| it
                .init_list::<Lists<Structs>>(0, 3)
                .init_structs(index, 1, size)
                .len())
            .0,
            fine
        );
        assert_eq!(
            with_root(|it| it.init_structs(0, 3, size).at(index).size().pointers).0,
            fine
        );
        assert!(with_root(|it| it.init_structs(0, 3, size).get(index).is_none()).0);
    }
}

#[test]
fn too_many_elements_are_refused() {
    let size = StructSize {
        data_words: 6,
        pointers: 6,
    };
    let refused = |count| (true, Some(Reason::TooManyElements(count)));
    assert_eq!(
        with_root(|it| {
            it.init_list::<u8>(0, MOST + 1);
        }),
        refused(MOST + 1)
    );
    assert_eq!(
        with_root(|it| {
            it.init_list::<()>(0, MOST + 1);
        }),
        refused(MOST + 1)
    );
    assert_eq!(
        with_root(|it| {
            it.init_list::<()>(0, MOST);
        }),
        (true, None)
    );
    assert_eq!(
        with_root(|it| {
            it.init_list::<u64>(0, 1 << 32);
        }),
        refused(1 << 32)
    );
    assert_eq!(
        with_root(|it| {
            it.init_structs(0, MOST / 12 + 1, size);
        }),
        refused(MOST / 12 + 1)
    );
    assert_eq!(
        with_root(|it| {
            it.init_structs(0, usize::MAX, size);
        }),
        refused(usize::MAX)
    );
    assert_eq!(
        with_root(|it| {
            it.init_structs(0, MOST + 1, NONE);
        }),
        refused(MOST + 1)
    );
    assert_eq!(
        with_root(|it| it.init_list::<Lists<u8>>(0, 1).init(0, MOST + 1).set(9, 1)),
        refused(MOST + 1)
    );
    assert_eq!(
        with_root(|it| {
            it.init_list::<Lists<Structs>>(0, 1)
                .init_structs(0, MOST / 12 + 1, size);
        }),
        refused(MOST / 12 + 1)
    );
    let nothing = StructSize {
        data_words: 0,
        pointers: 0,
    };
    for count in [MOST, MOST + 1, usize::MAX] {
        let expected = if count == MOST {
            (true, None)
        } else {
            refused(count)
        };
        assert_eq!(
            with_root(|it| {
                it.init_structs(0, count, nothing);
            }),
            expected
        );
        assert_eq!(
            with_root(|it| {
                it.init_list::<Lists<Structs>>(0, 1)
                    .init_structs(0, count, nothing);
            }),
            expected
        );
    }
    let large = vec![b' '; MOST + 1];
    assert_eq!(
        with_root(|it| {
            it.set_data(0, &large);
        }),
        refused(MOST + 1)
    );
    let text = std::str::from_utf8(&large[..MOST]).unwrap();
    assert_eq!(
        with_root(|it| {
            it.set_text(0, text);
        }),
        refused(MOST + 1)
    );
    assert_eq!(
        with_root(|it| it.init_list::<str>(0, 1).set(0, text)),
        refused(MOST + 1)
    );
    assert_eq!(
        with_root(|it| it.init_list::<[u8]>(0, 1).set(0, &large)),
        refused(MOST + 1)
    );
}

#[test]
fn refusals_are_kept() {
    let mut message = Builder::new();
    let mut root = message.init_root(SIZE);
    root.set_u64(0, 5).set_text(0, "text");
    root.edit_struct(0, SIZE).set_u64(9, 1).set_text(99, ""); // a text isn't a struct; what is refused takes every field
    let expected =
        Reason::Layout(ErrorKind::MessageContainsNonStructPointerWhereStructPointerWasExpected);
    assert_eq!(
        (root.get::<u64>(0), root.has(0), root.get_bool(0)),
        (0, false, false)
    );
    root.set_u64(77, 1).init_list::<u8>(77, 5).set(77, 1);
    let mut list = root.init_structs(0, 5, SIZE);
    list.at(77).set_u64(1 << 40, 0);
    assert!(list.next().is_none() && list.get(0).is_none() && list.is_empty());
    root.init_list::<u8>(0, MOST + 1);
    message.set_root(
        Message::from_words(&[0; 8], Limits::default())
            .unwrap()
            .sound()
            .unwrap(),
    );
    let refused = |it: capnp_layout::Error| it.reason();
    assert_eq!(
        message.refused().map(|it| it.reason()),
        Some(expected),
        "the first one"
    );
    assert_eq!(message.to_frame().map_err(refused), Err(expected));
    assert_eq!(message.to_packed().map_err(refused), Err(expected));
    assert_eq!(message.as_message().err().map(refused), Some(expected));
    assert_eq!(message.words().map_err(refused), Err(expected));
    assert_eq!(message.canonical().map_err(refused), Err(expected));
    assert_eq!(message.digest().map_err(refused), Err(expected));
    let mut out = Vec::new();
    let error = message.write(&mut out).unwrap_err();
    assert_eq!(
        (error.kind(), out.len()),
        (std::io::ErrorKind::InvalidData, 0)
    );
    assert_eq!(format!("{message:?}"), format!("Builder({expected})"));
    assert_eq!(message.into_words().map_err(refused), Err(expected));
}

#[test]
fn sources_that_are_refused() {
    // a message whose root has a pointer to itself
    let words = [1u64 << 48, 0xffff_fffc | 1 << 48]
        .map(u64::to_le_bytes)
        .concat();
    let message = Message::from_words(
        &words,
        Limits {
            words: 1000,
            depth: 64,
        },
    )
    .unwrap();
    let mut copy = Builder::new();
    copy.init_root(SIZE)
        .set_struct(0, message.lazy().unwrap().get_struct(0).unwrap());
    assert_eq!(
        copy.to_frame().unwrap_err().name(),
        "MessageIsTooDeeplyNestedOrContainsCycles"
    );
    assert!(format!("{:?}", message.lazy().unwrap())
        .contains("<MessageIsTooDeeplyNestedOrContainsCycles>"));
}
