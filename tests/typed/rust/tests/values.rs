//! Plain values: of the address book and of a struct with a field of each kind.

use capnp_layout::{Builder, Error, Limits, Message};
use typed_rust::values::addressbook_capnp::person::employment::WhichValue;
use typed_rust::values::addressbook_capnp::person::phone_number::Type;
use typed_rust::values::addressbook_capnp::person::{employment, phone_number};
use typed_rust::values::addressbook_capnp::{address_book, person, AddressBook, Person};
use typed_rust::values::fields_capnp::{inner, root, Colour, Root};

fn book() -> address_book::Value {
    let phone = |number: &str, type_| phone_number::Value {
        number: number.into(),
        type_,
    };
    let alice = person::Value {
        id: 123,
        name: "Alice".into(),
        email: "alice@example.com".into(),
        phones: vec![phone("555-1212", Type::Mobile)],
        employment: employment::Value {
            which: WhichValue::School("MIT".into()),
        },
    };
    let bob = person::Value {
        id: 456,
        name: "Bob".into(),
        phones: vec![phone("555-4567", Type::Home), phone("", Type::Unknown(7))],
        ..Default::default()
    };
    address_book::Value {
        people: vec![alice, bob],
    }
}

#[test]
fn a_value_is_written_and_read() -> Result<(), Error> {
    let value = book();
    let mut message = Builder::new();
    value.write_to(message.init::<AddressBook>());
    let bytes = message.to_frame()?;
    let message = Message::open(&bytes, Limits::default())?;
    let book = message.root::<AddressBook>()?;
    let (alice, bob) = (book.people().at(0), book.people().at(1));
    assert_eq!((alice.id(), alice.name(), bob.id()), (123, "Alice", 456));
    assert!(!bob.has_email() && !bob.phones().at(1).has_number());
    assert_eq!(bob.phones().at(1).type_(), Type::Unknown(7));
    assert_eq!(address_book::Value::from(book), value);
    let changed = address_book::Value {
        people: value.people[..1].to_vec(),
    };
    assert_ne!(changed, value);
    Ok(())
}

/// The same message as by a builder.
#[test]
fn a_value_is_written_like_a_builder_does() -> Result<(), Error> {
    let mut message = Builder::new();
    let mut person = message.init::<Person>();
    person.set_id(1).set_name("Carol");
    person.init_phones(1).at(0).set_number("1");
    person.employment().set_self_employed();
    let value = person::Value {
        id: 1,
        name: "Carol".into(),
        phones: vec![phone_number::Value {
            number: "1".into(),
            ..Default::default()
        }],
        employment: employment::Value {
            which: WhichValue::SelfEmployed,
        },
        ..Default::default()
    };
    let mut written = Builder::new();
    value.write_to(written.init::<Person>());
    assert_eq!(written.to_frame()?, message.to_frame()?);
    Ok(())
}

#[test]
fn a_default_value_has_those_of_the_schema() -> Result<(), Error> {
    let value = root::Value::default();
    assert_eq!((value.port, value.short, value.ratio), (8080, -300, 1.5));
    assert_eq!(
        (value.background, value.greeting.as_str()),
        (Colour::Green, "hello")
    );
    assert_eq!(value.counted, [1, 2, 3]);
    assert_eq!(value.named, ["a", "", "bcdefghij"]);
    assert_eq!(value.tabled, [vec![1, -2], vec![], vec![3]]);
    assert_eq!(value.sealed, [vec![0, 255], b"x".to_vec()]);
    let filled = value.filled.clone().unwrap();
    assert_eq!((filled.match_, filled.where_.as_str()), (5, "there"));
    assert_eq!((value.inner.is_none(), value.service), (true, None));
    assert_eq!(value.shape.which, root::shape::WhichValue::None);
    // what is written is read as the same, also if no field has its default value
    let other = root::Value {
        greeting: "".into(),
        counted: vec![],
        named: vec![],
        service: Some(3),
        inner: Some(Box::new(inner::Value {
            which: inner::WhichValue::Type("t".into()),
            ..Default::default()
        })),
        grid: vec![vec![], vec![inner::Value::default()]],
        flags: vec![true, false, true],
        voids: vec![(); 3],
        shape: root::shape::Value {
            which: root::shape::WhichValue::Sizes(vec![1, 2]),
        },
        ..Default::default()
    };
    for value in [value, other] {
        let mut message = Builder::new();
        value.write_to(message.init::<Root>());
        let message = message.as_message()?;
        assert_eq!(root::Value::from(message.root::<Root>()?), value);
    }
    Ok(())
}
