//! The generated code of the address book and of a struct with a field of each kind, as a program
//! uses it. `tests/typed/rust.py` compares it with `capnp`.

use capnp_layout::{
    Builder, Checked, Error, Limits, Lists, Message, Meter, Outcome, Reason, Struct, StructBuilder,
    StructSize, StructType,
};
use typed_rust::addressbook_capnp::person::employment::Which;
use typed_rust::addressbook_capnp::person::phone_number::Type;
use typed_rust::addressbook_capnp::{AddressBook, Person};
use typed_rust::fields_capnp::{self, root, Inner, Root};

fn book() -> Builder {
    let mut message = Builder::new();
    let mut book = message.init::<AddressBook>();
    let mut people = book.init_people(2);
    let mut alice = people.at(0);
    alice
        .set_id(123)
        .set_name("Alice")
        .set_email("alice@example.com");
    let mut phones = alice.init_phones(1);
    phones.at(0).set_number("555-1212").set_type(Type::Mobile);
    alice.employment().set_school("MIT");
    let mut bob = people.at(1);
    bob.set_id(456).set_name("Bob");
    let numbers = ["555-4567", "555-7654"];
    bob.init_phones(2).fill_with(numbers, |mut phone, number| {
        phone.set_number(number).set_type(Type::Work);
    });
    bob.employment().set_unemployed();
    message
}

/// What is signed. The ids are those of `capnp compile`, and the digests those of Python's hashlib over
/// an id and what `capnp convert text:canonical` writes.
#[test]
fn digests_with_the_type() {
    let hex = |digest: [u8; 32]| digest.map(|byte| format!("{byte:02x}")).concat();
    assert_eq!(AddressBook::TYPE_ID, 0xf934d9b354a8a134);
    assert_eq!(Person::TYPE_ID, 0x98808e9832e8bc18);
    let of_book = "afc5a525592abc7ec4f6823347ca57c4bd00b1b8777468cb9cb77f0dc0d97c6d";
    let of_alice = "3ea3f7207bba51a29bf0d52c1043ba00f09df94a0b4d3f73821397be6774df07";
    let (book_id, person_id) = (
        AddressBook::TYPE_ID.to_le_bytes(),
        Person::TYPE_ID.to_le_bytes(),
    );
    let built = book();
    assert_eq!(hex(built.digest_with(&book_id).unwrap()), of_book);
    let frame = built.to_frame().unwrap();
    let message = Message::open(&frame, Limits::default()).unwrap();
    assert_eq!(hex(message.digest_with(&book_id).unwrap()), of_book);
    let alice = message.root::<AddressBook>().unwrap().people().at(0);
    let alice = Struct::from(alice);
    assert_eq!(hex(alice.digest_with(&person_id).unwrap()), of_alice);
    assert_ne!(alice.digest_with(&book_id), alice.digest_with(&person_id));
}

/// What a program does with a book, by readers of every kind.
fn names<M: Meter>(book: AddressBook<'_, M>) -> Result<Vec<String>, Error> {
    let people = book.people().into_result()?;
    let name = |it: Person<'_, M>| Ok(it.name().into_result()?.to_string());
    people.iter().map(name).collect()
}

#[test]
fn a_book_is_built_and_read() -> Result<(), Error> {
    let bytes = book().to_frame()?;
    let message = Message::open(&bytes, Limits::default())?;
    let book = message.root::<AddressBook>()?;
    let people = book.people();
    let (alice, bob) = (people.at(0), people.at(1));
    assert_eq!((alice.id(), alice.email()), (123, "alice@example.com"));
    assert_eq!(alice.phones().at(0).type_(), Type::Mobile);
    assert!(matches!(alice.employment().which(), Which::School("MIT")));
    assert!(matches!(bob.employment().which(), Which::Unemployed));
    assert!(!bob.has_email() && bob.email().is_empty());
    assert_eq!(bob.phones().at(1).number(), "555-7654");
    assert_eq!(bob.name_bytes(), b"Bob");
    assert_eq!(names(book)?, ["Alice", "Bob"]);
    Ok(())
}

#[test]
fn a_book_is_read_without_its_schema_being_checked() -> Result<(), Error> {
    let bytes = book().to_frame()?;
    let message = Message::open(&bytes, Limits::default())?;
    assert_eq!(names(message.lazy()?.into())?, ["Alice", "Bob"]);
    let book = AddressBook::from(message.sound()?);
    assert_eq!(names(book)?, ["Alice", "Bob"]);
    let (alice, bob) = (book.people()?.at(0), book.people()?.at(1));
    assert_eq!((alice.id(), alice.email()?), (123, "alice@example.com"));
    assert!(matches!(alice.employment().which()?, Which::School("MIT")));
    assert!(matches!(bob.employment().which()?, Which::Unemployed));
    assert_eq!(bob.phones()?.at(1).number()?, "555-7654");
    Ok(())
}

/// A reader that was checked outlives neither its message nor anything else: it can be copied, sent
/// to other threads, and kept together with its message.
#[test]
fn a_checked_book_is_kept() -> Result<(), Error> {
    let bytes = book().to_frame()?;
    let kept: Checked<'static, AddressBook> =
        Message::copy(&bytes, Limits::default())?.into_root()?;
    let read = || names(kept.root()).unwrap();
    let others = std::thread::scope(|threads| threads.spawn(read).join().unwrap());
    assert_eq!(others, ["Alice", "Bob"]);
    assert!(kept.root() == book().as_message()?.root::<AddressBook>()?);
    Ok(())
}

#[test]
fn readers_are_shown_and_compared() -> Result<(), Error> {
    let built = book();
    let message = built.as_message()?;
    let people = message.root::<AddressBook>()?.people();
    let shown = format!("{:?}", people.at(0));
    let wanted = "Person { id: 123, name: \"Alice\", email: \"alice@example.com\", \
                  phones: [PhoneNumber { number: \"555-1212\", type: Mobile }], \
                  employment: Employment { which: School(\"MIT\") } }";
    assert_eq!(shown, wanted);
    assert!(people.at(0) == people.at(0) && people.at(0) != people.at(1));
    let fields = Struct::from(people.at(0));
    assert_eq!(fields.get_u32(0), 123);
    let lazily = AddressBook::from(message.lazy()?).people()?.at(0);
    assert_eq!(format!("{lazily:?}"), wanted);
    Ok(())
}

#[test]
fn numbers_without_a_name_are_kept() -> Result<(), Error> {
    let mut message = Builder::new();
    let mut person = message.init::<Person>();
    person.init_phones(1).at(0).set_type(Type::Unknown(9));
    StructBuilder::from(person.employment()).set_u16(2, 77);
    let message = message.as_message()?;
    let person = message.root::<Person>()?;
    assert_eq!(person.phones().at(0).type_(), Type::Unknown(9));
    assert!(matches!(person.employment().which(), Which::Unknown(77)));
    Ok(())
}

#[test]
fn what_is_of_another_kind_is_refused() -> Result<(), Error> {
    let mut message = Builder::new();
    let mut person = message.init::<Person>();
    person.set_name("a");
    StructBuilder::from(person).set_data(1, &[0xff, 0]);
    let message = message.as_message()?;
    let person = Person::from(message.sound()?);
    assert_eq!(person.email().unwrap_err().reason(), Reason::TextIsNotUtf8);
    assert_eq!(person.email_bytes()?, [0xff]);
    let refused = message.root::<Person>().unwrap_err();
    assert_eq!(refused.reason(), Reason::TextIsNotUtf8);
    assert_eq!(refused.field(), Some("Person.email"));
    assert_eq!((refused.path(), refused.place()), (Some("1"), Some((0, 3))));
    let wanted = "Person.email (pointer 1 at segment 0, word 3): TextIsNotUtf8";
    assert_eq!(refused.to_string(), wanted);
    let mut message = Builder::new();
    let book = message.init::<AddressBook>();
    StructBuilder::from(book).init_struct(
        0,
        StructSize {
            data_words: 1,
            pointers: 0,
        },
    );
    let message = message.as_message()?;
    let book = AddressBook::from(message.sound()?);
    assert!(book.people().is_err());
    let shown = format!("{book:?}");
    assert_eq!(
        shown,
        "AddressBook { people: <MessageContainsNonListPointerWhereListPointerWasExpected> }"
    );
    let refused = message.root::<AddressBook>().unwrap_err();
    assert_eq!(
        refused.name(),
        "MessageContainsNonListPointerWhereListPointerWasExpected"
    );
    assert_eq!(refused.field(), Some("AddressBook.people"));
    assert_eq!((refused.path(), refused.place()), (Some("0"), Some((0, 1))));
    Ok(())
}

/// The field of a refusal: inside of lists, in a list of lists, in a group, and where members of a
/// union share a pointer.
#[test]
fn a_refusal_names_its_field() -> Result<(), Error> {
    let none = StructSize {
        data_words: 1,
        pointers: 0,
    };
    let field = |write: &dyn Fn(&mut Builder)| -> Result<_, Error> {
        let mut message = Builder::new();
        write(&mut message);
        let refused = message.as_message()?.root::<Root>().unwrap_err();
        let path = refused.path().unwrap_or_default().to_string();
        Ok((refused.field().unwrap_or_default().to_string(), path))
    };
    let inner = field(&|message| {
        let mut root = message.init::<Root>();
        let mut inners = root.init_inners(3);
        StructBuilder::from(inners.at(2)).init_struct(0, none);
    })?;
    assert_eq!(inner, ("Inner.where".into(), "17.[2].0".into()));
    let lists = field(&|message| {
        let root = message.init::<Root>();
        StructBuilder::from(root)
            .init_list::<Lists<str>>(15, 2)
            .init(1, 1);
    })?;
    assert_eq!(lists, ("Root.names".into(), "15.[1]".into()));
    let group = field(&|message| {
        let root = message.init::<Root>();
        StructBuilder::from(root).init_struct(35, none);
    })?;
    assert_eq!(group, ("Root.spot.note".into(), "35".into()));
    let shared = field(&|message| {
        let mut root = message.init::<Root>();
        root.shape().set_photo(b"x");
        StructBuilder::from(root.shape()).init_struct(24, none);
    })?;
    assert!(shared
        .0
        .starts_with("Root.shape.corners or shape.other or "));
    Ok(())
}

/// What the schema doesn't know is checked too, but may lead to anything that can be read.
#[test]
fn a_newer_message_passes() -> Result<(), Error> {
    let mut message = Builder::new();
    let mut larger = message.init_root(StructSize {
        data_words: 4,
        pointers: 9,
    });
    larger.set_u32(0, 5).set_text(0, "Alice").set_text(8, "new");
    let mut frame = message.to_frame()?;
    let read = Message::open(&frame, Limits::default())?;
    let person = read.root::<Person>()?;
    assert_eq!((person.id(), person.name()), (5, "Alice"));
    // the pointer that the schema doesn't know leads out of the message
    let at = frame.len() - 8 * 2 - 8 + 2;
    frame[at] = 0x7f;
    let read = Message::open(&frame, Limits::default())?;
    let refused = read.root::<Person>().unwrap_err();
    assert_eq!(refused.name(), "MessageContainsOutOfBoundsPointer");
    assert_eq!(
        (refused.field(), refused.path()),
        (Some("Person"), Some("8"))
    );
    Ok(())
}

#[test]
fn null_fields_have_their_default_values() -> Result<(), Error> {
    let mut message = Builder::new();
    message.init::<Root>();
    let message = message.as_message()?;
    let root = message.root::<Root>()?;
    assert_eq!((root.port(), root.short(), root.ratio()), (8080, -300, 1.5));
    assert_eq!(root.background(), fields_capnp::Colour::Green);
    assert_eq!(
        (root.greeting(), root.magic()),
        ("hello", &[0, 0xff, 0x10, 0x22][..])
    );
    let filled = root.filled();
    assert_eq!((filled.match_(), filled.where_()), (5, "there"));
    assert_eq!(root.counted().iter().collect::<Vec<_>>(), [1, 2, 3]);
    let rows: Vec<Vec<i8>> = root.tabled().iter().map(|it| it.iter().collect()).collect();
    assert_eq!(rows, [vec![1, -2], vec![], vec![3]]);
    assert_eq!(
        root.named().iter().collect::<Vec<_>>(),
        ["a", "", "bcdefghij"]
    );
    assert!(root.filled() == fields_capnp::filled_default());
    assert_eq!(
        fields_capnp::checked_default().iter().collect::<Vec<_>>(),
        [true, false, true]
    );
    assert_eq!(root.service(), None);
    let lazily = Root::from(message.lazy()?);
    assert_eq!((lazily.greeting()?, lazily.service()?), ("hello", None));
    assert_eq!(lazily.tabled()?.at(2)?.at(0), 3);
    Ok(())
}

#[test]
fn any_pointer_takes_every_kind() -> Result<(), Error> {
    let mut message = Builder::new();
    let mut root = message.init::<Root>();
    root.init_any().init_struct::<Inner>().set_where("here");
    root.init_grid(2).init_structs(1, 3).at(2).set_match(7);
    root.shape().init_side().set_width(4);
    let copy = {
        let message = message.as_message()?;
        let root = message.root::<Root>()?;
        let inner: Inner = root.any().as_checked::<Inner>()?;
        assert_eq!(inner.where_(), "here");
        assert_eq!(Inner::from(root.any().as_struct()?).where_()?, "here");
        assert_eq!(root.grid().at(1).at(2).match_(), 7);
        match root.shape().which() {
            root::shape::Which::Side(side) => assert_eq!(side.width(), 4),
            other => panic!("{other:?}"),
        }
        let mut copy = Builder::new();
        let mut to = copy.init::<Root>();
        to.set_any(root.any())
            .set_inner(inner)
            .set_grid(root.grid());
        copy
    };
    let mut again = copy;
    again.edit::<Root>().edit_inner().set_match(1);
    again.edit::<Root>().init_any().set_text("text");
    let message = again.as_message()?;
    let root = message.root::<Root>()?;
    assert_eq!((root.inner().where_(), root.inner().match_()), ("here", 1));
    assert_eq!(root.any().as_text()?, "text");
    let refused = root.any().as_checked::<Inner>().unwrap_err();
    assert_eq!(
        refused.name(),
        "MessageContainsNonStructPointerWhereStructPointerWasExpected"
    );
    Ok(())
}

#[test]
fn setting_a_group_clears_it() -> Result<(), Error> {
    let mut message = Builder::new();
    let mut root = message.init::<Root>();
    root.shape()
        .init_side()
        .set_width(4)
        .set_height(5)
        .unit()
        .set_foot("f");
    root.shape().set_sign(true);
    root.shape().init_side();
    let message = message.as_message()?;
    let root = message.root::<Root>()?;
    let root::shape::Which::Side(side) = root.shape().which() else {
        panic!("the member isn't set");
    };
    assert_eq!((side.width(), side.height()), (0, 0));
    assert!(matches!(
        side.unit().which(),
        root::shape::side::unit::Which::Metre
    ));
    assert!(!side.unit().has_foot());
    Ok(())
}
