//! The crate over the stand-in: messages by their segments, by their reader and by the reader of a struct.
#![allow(deprecated)]
use capnp::message::{Reader, ReaderOptions, SegmentArray};
use capnp_canonical::Limits;
use capnp_canonical_capnp::{canonical_copy, check, is_canonical, limits, size};
use newest::are_words_of;

/// A struct of three words, the last of which is zero, in two segments; and its canonical words.
fn message() -> ([Vec<u8>; 2], Vec<u8>) {
    let words = |words: &[u64]| words.iter().flat_map(|it| it.to_le_bytes()).collect();
    (
        [words(&[2 | 1 << 32]), words(&[3 << 32, 7, 8, 0])],
        words(&[2 << 32, 7, 8]),
    )
}

#[test]
fn segments() {
    let (segments, words) = message();
    let options = ReaderOptions::new();
    let array = [&segments[0][..], &segments[1][..]];
    let message = Reader::new(SegmentArray::new(&array), options);
    let segments = message.into_segments();
    assert!(are_words_of(&segments, &options, &words));
    assert!(!is_canonical(&segments, limits(&options)));
    assert!(check(&segments, limits(&options)).is_ok_and(|it| it.is_some()));
    assert_eq!(size(&segments, limits(&options)).map(|it| it.words), Ok(3));
    assert_eq!(
        canonical_copy(&array[..], limits(&options)).map(|it| it[8..].to_vec()),
        Ok(words)
    );
    let none = ReaderOptions {
        traversal_limit_in_words: None,
        nesting_limit: 1,
    };
    assert_eq!(limits(&none), Limits::new(1, u64::MAX));
}

#[cfg(feature = "std")]
#[test]
fn readers() {
    use capnp::private::layout::{PointerBuilder, PointerReader};
    use capnp::traits::{FromPointerReader, Owned, SetterInput};
    use capnp::{any_pointer, ErrorKind, Word};
    use capnp_canonical::Error;
    use capnp_canonical_capnp::{canonical_words_of, canonical_words_of_reader, ValueError};

    /// What is generated for a struct of a schema.
    struct Person;

    struct PersonReader<'a>(any_pointer::Reader<'a>);

    impl Owned for Person {
        type Reader<'a> = PersonReader<'a>;
    }

    impl<'a> FromPointerReader<'a> for PersonReader<'a> {
        fn get_from_pointer(
            reader: &PointerReader<'a>,
            default: Option<&'a [Word]>,
        ) -> capnp::Result<Self> {
            FromPointerReader::get_from_pointer(reader, default).map(PersonReader)
        }
    }

    impl SetterInput<Person> for PersonReader<'_> {
        fn set_pointer_builder(
            builder: PointerBuilder<'_>,
            input: Self,
            canonicalize: bool,
        ) -> capnp::Result<()> {
            SetterInput::set_pointer_builder(builder, input.0, canonicalize)
        }
    }

    let (segments, words) = message();
    let options = ReaderOptions::new();
    let array = [&segments[0][..], &segments[1][..]];
    let message = Reader::new(SegmentArray::new(&array), options);
    let by_reader = canonical_words_of_reader(&message, limits(&options));
    assert_eq!(by_reader.ok().as_ref(), Some(&words));

    let person: PersonReader = message.get_root().unwrap();
    let of_struct = canonical_words_of(|copy| copy.set_root(person), limits(&options));
    assert_eq!(of_struct.ok(), Some(words));

    let refused = canonical_words_of_reader(&message, Limits::new(64, 2)).unwrap_err();
    assert!(matches!(refused, ValueError::Refused(error) if error == Error::READ_LIMIT_EXCEEDED));
    let none = ReaderOptions {
        traversal_limit_in_words: Some(0),
        nesting_limit: 64,
    };
    let message = Reader::new(SegmentArray::new(&array), none);
    let refused = canonical_words_of_reader(&message, Limits::default()).unwrap_err();
    assert!(
        matches!(&refused, ValueError::Copy(error) if error.kind == ErrorKind::ReadLimitExceeded)
    );
    assert_eq!(
        capnp::Error::from(refused).kind,
        ErrorKind::ReadLimitExceeded
    );
}
