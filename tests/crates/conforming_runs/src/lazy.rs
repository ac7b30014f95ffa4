//! Reads messages by getters that may be refused, each field once.

use capnp_proved::capnp_arena::arena::ReaderArena;
use capnp_proved::capnp_readers::readers::StructReader;
use capnp_proved::capnp_words::error::ErrorKind;
use capnp_proved::capnp_words::read_limiter::ReadLimiter;
use capnp_proved::typed_conforming::schema::NOT_UTF8;
use capnp_proved::typed_reading::{list, value};

/// What was read, in order.
#[derive(Debug, Default, PartialEq)]
pub struct Read(pub Vec<String>);

impl Read {
    pub fn bytes(&mut self, name: &str, bytes: &[u8]) {
        self.0.push(format!("{name}={}", bytes.escape_ascii()));
    }

    pub fn text(&mut self, name: &str, text: &str) {
        self.bytes(name, text.as_bytes());
    }

    /// The same for bytes that have to be UTF-8.
    fn try_text(&mut self, name: &str, bytes: &[u8]) -> Result<(), ErrorKind> {
        let text = str::from_utf8(bytes).map_err(|_| NOT_UTF8)?;
        self.text(name, text);
        Ok(())
    }

    pub fn number(&mut self, name: &str, number: impl ToString) {
        self.0.push(format!("{name}={}", number.to_string()));
    }
}

/// Reads a `Kinds` of `tests/typed/kinds.capnp`.
pub fn read_kinds<A: ReaderArena>(
    kinds: &StructReader<'_, A>,
    lim: &mut ReadLimiter,
    read: &mut Read,
) -> Result<(), ErrorKind> {
    read.bytes("text", value::get_text(kinds, 0, lim)?);
    read.bytes("data", value::get_data(kinds, 1, lim)?);
    if value::has(kinds, 2) {
        read_kinds(&value::get_struct(kinds, 2, lim)?, lim, read)?;
    }
    let texts = list::get_texts(kinds, 4, lim)?;
    for i in 0..texts.len() {
        read.try_text("texts", texts.get(i, lim)?)?;
    }
    let numbers = list::get_numbers::<A, u32>(kinds, 5, lim)?;
    for i in 0..numbers.len() {
        read.number("numbers", numbers.get(i));
    }
    let bits = list::get_numbers::<A, bool>(kinds, 6, lim)?;
    for i in 0..bits.len() {
        read.number("bits", bits.get(i));
    }
    read_items(kinds, 7, lim, read)?;
    let lists = list::get_pointers(kinds, 8, lim)?;
    for i in 0..lists.len() {
        let numbers = list::get_numbers::<A, u16>(&lists.get(i), 0, lim)?;
        read.number("lists", numbers.len());
        for j in 0..numbers.len() {
            read.number("lists", numbers.get(j));
        }
    }
    match (
        value::get_number::<A, u16>(kinds, 0),
        value::get_number::<A, u16>(kinds, 1),
    ) {
        (0, _) => read.bytes("name", value::get_text(kinds, 9, lim)?),
        (1, _) => read_item(&value::get_struct(kinds, 9, lim)?, lim, read)?,
        (2, 0) => read.bytes("bytes", value::get_data(kinds, 9, lim)?),
        (2, 1) => read_items(kinds, 9, lim, read)?,
        _ => {}
    }
    Ok(())
}

fn read_items<A: ReaderArena>(
    kinds: &StructReader<'_, A>,
    index: usize,
    lim: &mut ReadLimiter,
    read: &mut Read,
) -> Result<(), ErrorKind> {
    let items = list::get_structs(kinds, index, lim)?;
    for i in 0..items.len() {
        read_item(&items.get(i), lim, read)?;
    }
    Ok(())
}

fn read_item<A: ReaderArena>(
    item: &StructReader<'_, A>,
    lim: &mut ReadLimiter,
    read: &mut Read,
) -> Result<(), ErrorKind> {
    read.try_text("item", value::get_text(item, 0, lim)?)?;
    read.number("item", value::get_number::<A, u32>(item, 0));
    Ok(())
}

/// Reads an `AddressBook` of `tests/typed/addressbook.capnp`.
pub fn read_book<A: ReaderArena>(
    book: &StructReader<'_, A>,
    lim: &mut ReadLimiter,
    read: &mut Read,
) -> Result<(), ErrorKind> {
    let people = list::get_structs(book, 0, lim)?;
    for i in 0..people.len() {
        let person = people.get(i);
        read.number("id", value::get_number::<A, u32>(&person, 0));
        read.try_text("name", value::get_text(&person, 0, lim)?)?;
        read.try_text("email", value::get_text(&person, 1, lim)?)?;
        let phones = list::get_structs(&person, 2, lim)?;
        for j in 0..phones.len() {
            let phone = phones.get(j);
            read.try_text("number", value::get_text(&phone, 0, lim)?)?;
            read.number("type", value::get_number::<A, u16>(&phone, 0));
        }
        if let 1 | 2 = value::get_number::<A, u16>(&person, 2) {
            read.try_text("employment", value::get_text(&person, 3, lim)?)?;
        }
    }
    Ok(())
}
