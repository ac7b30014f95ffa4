//! Reads messages by getters that can't be refused, after the whole message was tested.

use crate::lazy::Read;
use crate::tables::{ITEM, KINDS_ROW, LISTS, PERSON, PHONE, TEXTS};
use capnp_proved::capnp_arena::arena::ReaderArena;
use capnp_proved::typed_conforming::checked::CheckedStruct;
use capnp_proved::typed_reading::value;

/// Reads a `Kinds` of `tests/typed/kinds.capnp`.
pub fn read_kinds<A: ReaderArena>(kinds: CheckedStruct<'_, '_, A>, read: &mut Read) {
    read.bytes("text", kinds.get_text(0));
    read.bytes("data", kinds.get_data(1));
    if value::has(&kinds.reader, 2) {
        read_kinds(kinds.get_struct(2, KINDS_ROW), read);
    }
    let texts = kinds.get_pointers(4, TEXTS);
    for i in 0..texts.len() {
        read.text("texts", texts.get(i).get_str(0));
    }
    let numbers = kinds.get_numbers::<u32>(5);
    for i in 0..numbers.len() {
        read.number("numbers", numbers.get(i));
    }
    let bits = kinds.get_numbers::<bool>(6);
    for i in 0..bits.len() {
        read.number("bits", bits.get(i));
    }
    read_items(kinds, 7, read);
    let lists = kinds.get_pointers(8, LISTS);
    for i in 0..lists.len() {
        let numbers = lists.get(i).get_numbers::<u16>(0);
        read.number("lists", numbers.len());
        for j in 0..numbers.len() {
            read.number("lists", numbers.get(j));
        }
    }
    let number = |offset| value::get_number::<A, u16>(&kinds.reader, offset);
    match (number(0), number(1)) {
        (0, _) => read.bytes("name", kinds.get_text(9)),
        (1, _) => read_item(kinds.get_struct(9, ITEM), read),
        (2, 0) => read.bytes("bytes", kinds.get_data(9)),
        (2, 1) => read_items(kinds, 9, read),
        _ => {}
    }
}

fn read_items<A: ReaderArena>(kinds: CheckedStruct<'_, '_, A>, index: u16, read: &mut Read) {
    let items = kinds.get_structs(index, ITEM);
    for i in 0..items.len() {
        read_item(items.get(i), read);
    }
}

fn read_item<A: ReaderArena>(item: CheckedStruct<'_, '_, A>, read: &mut Read) {
    read.text("item", item.get_str(0));
    read.number("item", value::get_number::<A, u32>(&item.reader, 0));
}

/// Reads an `AddressBook` of `tests/typed/addressbook.capnp`.
pub fn read_book<A: ReaderArena>(book: CheckedStruct<'_, '_, A>, read: &mut Read) {
    let people = book.get_structs(0, PERSON);
    for i in 0..people.len() {
        let person = people.get(i);
        read.number("id", value::get_number::<A, u32>(&person.reader, 0));
        read.text("name", person.get_str(0));
        read.text("email", person.get_str(1));
        let phones = person.get_structs(2, PHONE);
        for j in 0..phones.len() {
            let phone = phones.get(j);
            read.text("number", phone.get_str(0));
            read.number("type", value::get_number::<A, u16>(&phone.reader, 0));
        }
        if let 1 | 2 = value::get_number::<A, u16>(&person.reader, 2) {
            read.text("employment", person.get_str(3));
        }
    }
}
