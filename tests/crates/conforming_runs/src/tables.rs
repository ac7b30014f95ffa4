//! Schemas as data, by hand. Each line is a row or a test, at the position in its comment.

/// Kind words without an argument.
const ANY: u32 = 0;
const TEXT: u32 = 2;
const UTF8: u32 = 3;
const DATA: u32 = 4;
const BITS: u32 = list(1, 0);
const SHORTS: u32 = list(3, 0);
const WORDS: u32 = list(4, 0);

/// The kind word of a struct of this row.
const fn record(row: u32) -> u32 {
    16 * row + 5
}

/// The kind word that names a test.
const fn test(position: u32) -> u32 {
    16 * position + 7
}

/// The kind word of a list with elements of this size and row.
const fn list(size: u32, row: u32) -> u32 {
    16 * row + 8 + size
}

/// The kind word of a list of pointers of this row, and of one of structs.
const fn pointers(row: u32) -> u32 {
    list(6, row)
}

const fn records(row: u32) -> u32 {
    list(7, row)
}

/// The rows of `KINDS`: `Kinds`, `Item`, and the elements of a list of texts and of a list of lists.
pub const KINDS_ROW: u32 = 1;
pub const ITEM: u32 = 12;
pub const TEXTS: u32 = 14;
pub const LISTS: u32 = 16;

/// `tests/typed/kinds.capnp`. Its texts are of both kinds.
#[rustfmt::skip]
pub static KINDS: [u32; 38] = [
    0, // 0
    10, TEXT, DATA, record(KINDS_ROW), ANY, pointers(TEXTS), WORDS, BITS, records(ITEM), pointers(LISTS), test(18), // 1
    1, UTF8, // 12
    1, UTF8, // 14
    1, SHORTS, // 16
    0, 0, TEXT, test(22), // 18: `name`
    0, 1, record(ITEM), test(26), // 22: `item`
    0, 2, test(30), ANY, // 26: `inner`
    1, 0, DATA, test(34), // 30: `inner.bytes`
    1, 1, records(ITEM), ANY, // 34: `inner.more`
];

/// The rows of `BOOK`: `AddressBook`, `Person` and `PhoneNumber`.
pub const BOOK_ROW: u32 = 1;
pub const PERSON: u32 = 3;
pub const PHONE: u32 = 8;

/// `tests/typed/addressbook.capnp`.
#[rustfmt::skip]
pub static BOOK: [u32; 18] = [
    0, // 0
    1, records(PERSON), // 1
    4, UTF8, UTF8, records(PHONE), test(10), // 3
    1, UTF8, // 8
    2, 1, UTF8, test(14), // 10: `employer`
    2, 2, UTF8, ANY, // 14: `school`
];
