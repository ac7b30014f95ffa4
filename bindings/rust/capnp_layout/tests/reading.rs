//! Reads a message with a field of each kind, which `capnp encode tests/all.capnp All` wrote, in
//! both ways.
use capnp_layout::{
    ElementSize, Error, ErrorKind, Limits, Lists, Message, Meter, Outcome, Pointers, Reason,
    Struct, Target,
};
use std::panic::catch_unwind;

const WHOLE: &[u8] = include_bytes!("data/all.bin");
const SEGMENTS: &[u8] = include_bytes!("data/all-segments.bin");

fn open(bytes: &[u8]) -> Message<'_> {
    Message::open(bytes, Limits::default()).unwrap()
}

fn expect_all<M: Meter>(all: Struct<'_, M>) -> Result<(), Error> {
    assert!(all.get_list::<u16>(0)?.iter().eq([1, 2, 65535]));
    assert!(all.get_list::<f64>(1)?.iter().eq([1.5, -0.25]));
    assert_eq!(
        all.get_list::<str>(2)?
            .iter()
            .map(Outcome::into_result)
            .collect::<Result<Vec<_>, _>>()?,
        ["a", "", "ü"]
    );
    assert_eq!(all.get_data(3)?, b"\x00\xff");
    assert_eq!(
        all.get_list::<[u8]>(4)?
            .iter()
            .map(Outcome::into_result)
            .collect::<Result<Vec<_>, _>>()?,
        [&b"x"[..], b"yz"]
    );
    let nested: Vec<Vec<u8>> = all
        .get_list::<Lists<u8>>(5)?
        .iter()
        .map(|it| Ok(it.into_result()?.iter().collect()))
        .collect::<Result<_, Error>>()?;
    assert_eq!(nested, [vec![1, 2], vec![], vec![3]]);
    let inner = all.get_struct(6)?;
    assert_eq!(
        (inner.get_i64(1), inner.get_bool(0), inner.get_or(1, 1.5f32)),
        (-7, true, 1.5)
    );
    assert!(all
        .get_list::<bool>(7)?
        .iter()
        .eq([true, false, true, true, false, false, true, false, true]));
    assert!(!all.has(8) && all.has(7) && all.get_pointer(8).is_null());
    let alls = all.get_structs(9)?;
    assert_eq!((alls.len(), alls.at(0).get_i64(1)), (2, 1));
    assert_eq!(alls.at(1).get_list::<str>(2)?.at(0).into_result()?, "deep");
    assert_eq!(
        (all.get_text(10)?, all.get_text_bytes(10)?),
        ("Zoë", "Zoë".as_bytes())
    );
    assert_eq!(
        (all.get_i64(1), all.get_or(1, 1.5f32), all.get_bool(0)),
        (-1234567890123, 2.5, false)
    );
    assert_eq!((all.data_section().len(), all.pointer_count()), (16, 11));
    Ok(())
}

#[test]
fn every_kind_is_read() {
    for bytes in [WHOLE, SEGMENTS] {
        let message = open(bytes);
        expect_all(message.sound().unwrap()).unwrap();
        expect_all(message.lazy().unwrap()).unwrap();
    }
    let packed =
        Message::open_packed(include_bytes!("data/all-packed.bin"), Limits::default()).unwrap();
    expect_all(packed.sound().unwrap()).unwrap();
}

#[test]
fn fields_that_are_not_there_are_zero_or_null() {
    let message = open(WHOLE);
    let all = message.sound().unwrap();
    assert_eq!(
        (
            all.get_u64(2),
            all.get_u8(16),
            all.get_f64(usize::MAX),
            all.get_bool(128)
        ),
        (0, 0, 0.0, false)
    );
    assert_eq!(all.get_or(2, 7u64), 7);
    for index in [8, 11, usize::MAX] {
        let nothing = all.get_pointer(index);
        assert!(nothing.is_null() && !all.has(index));
        assert_eq!(
            (nothing.as_text().unwrap(), nothing.as_data().unwrap()),
            ("", &[][..])
        );
        assert_eq!(nothing.as_struct().unwrap().pointer_count(), 0);
        assert!(nothing.as_list::<u32>().unwrap().is_empty());
        assert_eq!(
            nothing.as_capability().unwrap_err().name(),
            "MessageContainsNullCapabilityPointer"
        );
        assert!(matches!(nothing.target(), Ok(Target::Null)));
    }
}

#[test]
fn lists_as_other_types() {
    let message = open(WHOLE);
    let all = message.sound().unwrap();
    assert!(
        all.get_list::<u8>(0).unwrap().iter().eq([1, 2, 255]),
        "wider numbers are cut"
    );
    assert!(
        all.get_structs(0)
            .unwrap()
            .iter()
            .map(|it| it.get_u16(0))
            .eq([1, 2, 65535]),
        "numbers became structs"
    );
    assert_eq!(all.get_list::<()>(0).unwrap().len(), 3);
    assert!(all.get_list::<i16>(0).unwrap().iter().eq([1, 2, -1]));
    let reason = |error: Error| match error.reason() {
        Reason::Layout(kind) => kind,
        other => panic!("{other}"),
    };
    assert_eq!(
        reason(all.get_list::<u32>(0).unwrap_err()),
        ErrorKind::MessageContainsListWithIncompatibleElementType
    );
    assert_eq!(
        reason(all.get_list::<str>(0).unwrap_err()),
        ErrorKind::MessageContainsListWithIncompatibleElementType
    );
    assert_eq!(
        reason(all.get_structs(7).unwrap_err()),
        ErrorKind::FoundBitListWhereStructListWasExpected
    );
    assert_eq!(
        reason(all.get_list::<bool>(9).unwrap_err()),
        ErrorKind::FoundStructListWhereBitListWasExpected
    );
    assert_eq!(
        reason(all.get_text(0).unwrap_err()),
        ErrorKind::MessageContainsListPointerOfNonBytesWhereTextWasExpected
    );
    assert_eq!(
        reason(all.get_text(3).unwrap_err()),
        ErrorKind::MessageContainsTextThatIsNotNULTerminated
    );
    assert_eq!(
        reason(all.get_struct(0).unwrap_err()),
        ErrorKind::MessageContainsNonStructPointerWhereStructPointerWasExpected
    );
    let pointers = all.get_list::<Pointers>(2).unwrap();
    assert_eq!(pointers.at(2).as_text().unwrap(), "ü");
}

#[test]
fn what_pointers_lead_to() {
    let message = open(WHOLE);
    let root = message.sound_pointer().unwrap();
    let Ok(Target::Struct(all)) = root.target() else {
        panic!("a struct was expected")
    };
    assert!(matches!(
        all.get_pointer(0).target(),
        Ok(Target::List {
            size: ElementSize::TwoBytes,
            len: 3
        })
    ));
    assert!(matches!(
        all.get_pointer(7).target(),
        Ok(Target::List {
            size: ElementSize::Bit,
            len: 9
        })
    ));
    assert!(matches!(
        all.get_pointer(9).target(),
        Ok(Target::List {
            size: ElementSize::InlineComposite,
            len: 2
        })
    ));
}

#[test]
fn indexes_out_of_range() {
    let message = open(WHOLE);
    let numbers = message.sound().unwrap().get_list::<u16>(0).unwrap();
    for index in [3, 1 << 32, usize::MAX] {
        assert!(numbers.get(index).is_none());
        assert!(catch_unwind(|| numbers.at(index)).is_err());
    }
    let structs = message.sound().unwrap().get_structs(9).unwrap();
    assert!(structs.get(1).is_some() && structs.get(2).is_none());
    assert!(catch_unwind(|| structs.at(2).get_u8(0)).is_err());
}

#[test]
fn iterators() {
    let message = open(WHOLE);
    let numbers = message.sound().unwrap().get_list::<u16>(0).unwrap();
    let mut iter = numbers.iter();
    assert_eq!(iter.len(), 3);
    assert_eq!(
        (
            iter.next_back(),
            iter.len(),
            iter.nth(1),
            iter.next(),
            iter.next_back()
        ),
        (Some(65535), 2, Some(2), None, None)
    );
    assert_eq!(numbers.iter().nth(3), None);
    assert_eq!(numbers.iter().nth(usize::MAX), None);
    assert_eq!(numbers.iter().rev().collect::<Vec<_>>(), [65535, 2, 1]);
    assert_eq!(numbers.into_iter().map(u32::from).sum::<u32>(), 65538);
    assert_eq!(
        format!("{numbers:?} {:?}", numbers.iter()),
        "[1, 2, 65535] [1, 2, 65535]"
    );
}

#[test]
fn texts_have_to_be_utf8() {
    let mut bytes = WHOLE.to_vec();
    let at = bytes
        .windows(5)
        .position(|it| it == "Zoë\0".as_bytes())
        .unwrap();
    bytes[at] = 0xff;
    let message = open(&bytes);
    let all = message.sound().unwrap();
    let error = all.get_text(10).unwrap_err();
    assert_eq!(
        (error.reason(), error.name(), error.number()),
        (Reason::TextIsNotUtf8, "TextIsNotUtf8", 128)
    );
    assert_eq!(all.get_text_bytes(10).unwrap(), b"\xffo\xc3\xab");
}

#[test]
fn equal_values() {
    let (one, many) = (open(WHOLE), open(SEGMENTS));
    assert_eq!(one, many);
    assert_eq!(one.sound().unwrap(), many.lazy().unwrap());
    assert_eq!(one.sound_pointer().unwrap(), many.sound_pointer().unwrap());
    assert_eq!(
        one.sound().unwrap().get_structs(9).unwrap(),
        many.sound().unwrap().get_structs(9).unwrap()
    );
    assert_eq!(
        one.sound().unwrap().get_list::<str>(2).unwrap(),
        many.sound().unwrap().get_list::<str>(2).unwrap()
    );
    let inner = one.sound().unwrap().get_struct(6).unwrap();
    assert_ne!(one.sound().unwrap(), inner);
    assert_eq!(inner, inner);
    let texts = one.sound().unwrap().get_list::<str>(2).unwrap();
    let none = inner.get_list::<str>(2).unwrap();
    assert_eq!((texts.len(), none.len()), (3, 0));
    assert_ne!(texts, none);
    // a capability has no canonical words
    let mut bytes = WHOLE.to_vec();
    bytes[8 + 8 * (1 + 2 + 8)] = 3;
    let message = open(&bytes);
    let all = message.sound().unwrap();
    assert_eq!(all.get_capability(8).unwrap(), 0);
    assert!(matches!(
        all.get_pointer(8).target(),
        Ok(Target::Capability(0))
    ));
    let error = message.canonical().unwrap_err();
    assert_eq!(
        (error.name(), error.path(), error.place()),
        (
            "CannotCreateACanonicalMessageWithACapability",
            Some("8"),
            Some((0, 11))
        )
    );
    assert_ne!(message, message);
    assert_ne!(all, all);
}

#[test]
fn debug_output() {
    let message = open(WHOLE);
    let all = message.sound().unwrap();
    assert_eq!(
        format!("{:?}", all.get_pointer(2)),
        r#"[b"a\x00", b"\x00", b"\xc3\xbc\x00"]"#
    );
    assert_eq!(
        format!("{:?}", all.get_list::<str>(2).unwrap()),
        r#"[Ok("a"), Ok(""), Ok("ü")]"#
    );
    assert_eq!(
        format!("{:?}", all.get_pointer(7)),
        "[true, false, true, true, false, false, true, false, true]"
    );
    assert_eq!(
        format!("{:?} {:?}", all.get_pointer(0), all.get_pointer(8)),
        "[1, 2, 65535] null"
    );
    let inner = format!("{:?}", all.get_struct(6).unwrap());
    assert!(
        inner.starts_with("Struct { data: 0x0100000000000000f9ffffffffffffff, pointers: [null, "),
        "{inner}"
    );
    assert!(format!("{message:?}").starts_with("Message(Struct { data: 0x"));
    assert_eq!(format!("{:?}", message.lazy().unwrap()), format!("{all:?}"));
}

#[test]
fn sound_readers_are_plain_values() {
    fn is_plain<T: Copy + Send + Sync>(value: T) -> T {
        value
    }
    fn is_sent<T: Send>(value: T) -> T {
        value
    }
    let message = is_sent(Message::copy(WHOLE, Limits::default()).unwrap());
    let all = is_plain(message.sound().unwrap());
    let structs = is_plain(all.get_structs(9).unwrap());
    is_plain(all.get_pointer(1));
    is_plain(is_plain(all.get_list::<str>(2).unwrap()).len());
    let numbers = std::thread::scope(|threads| {
        let workers: Vec<_> = structs
            .iter()
            .map(|it| threads.spawn(move || it.get_i64(1)))
            .collect();
        workers
            .into_iter()
            .map(|it| it.join().unwrap())
            .collect::<Vec<_>>()
    });
    assert_eq!(numbers, [1, 0]);
    fn is_shared<T: Send + Sync + 'static>(value: T) -> T {
        value
    }
    let checked = std::sync::Arc::new(is_shared(message.into_checked().unwrap()));
    let also = checked.clone();
    assert_eq!(
        std::thread::spawn(move || also.root().get_i64(1))
            .join()
            .unwrap(),
        -1234567890123
    );
    expect_all(checked.root()).unwrap();
    assert_eq!(*checked, open(SEGMENTS).into_checked().unwrap());
    assert_eq!(
        (
            checked.segments().count(),
            open(SEGMENTS).into_checked().unwrap().segments().count() > 1
        ),
        (1, true)
    );
    assert!(format!("{checked:?}").starts_with("Checked(Struct {"));
}

#[test]
fn a_root_that_is_no_struct() {
    let words = [1u64, 2 << 35 | 2 << 32 | 1, 0x0201]
        .map(u64::to_le_bytes)
        .concat();
    let message = Message::from_words(&words[8..], Limits::default()).unwrap();
    assert_eq!(
        message.sound().unwrap_err().name(),
        "MessageContainsNonStructPointerWhereStructPointerWasExpected"
    );
    assert!(message
        .sound_pointer()
        .unwrap()
        .as_list::<u8>()
        .unwrap()
        .iter()
        .eq([1, 2]));
    assert!(message
        .lazy_pointer()
        .unwrap()
        .as_list::<u8>()
        .unwrap()
        .iter()
        .eq([1, 2]));
    assert_eq!(
        message.into_checked().unwrap_err().name(),
        "MessageContainsNonStructPointerWhereStructPointerWasExpected"
    );
}
