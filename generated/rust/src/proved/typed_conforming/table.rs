//! Reads a schema's table: what a pointer may lead to.

use crate::proved::capnp_pointers::object::Place;
use crate::proved::capnp_words::wire_pointer::ElementSize;
use crate::proved::capnp_words::words::word_at;
use crate::proved::typed_conforming::schema::Kind;

// The kind word of a text.
pub(in crate::proved::typed_conforming) const TEXT: u32 = 2;

// The kind word of a text that is UTF-8.
pub(in crate::proved::typed_conforming) const UTF8: u32 = 3;

// The tag of a kind word that names a test.
const TEST: u32 = 7;

// The word of a table at `position`; 0 past its end.
#[inline(always)]
fn table_word(table: &[u32], position: usize) -> u32 {
    if position >= table.len() {
        return 0;
    }
    table[position]
}

// The kind that a kind word says by itself: `Any` if it names a test.
#[inline(always)]
pub(in crate::proved::typed_conforming) fn word_kind(word: u32) -> Kind {
    let argument = word / 16;
    match word % 16 {
        1 => Kind::Capability,
        2 => Kind::Text,
        3 => Kind::Utf8,
        4 => Kind::Data,
        5 => Kind::Struct(argument),
        6 => Kind::AnyList,
        8 => Kind::List(ElementSize::Void, argument),
        9 => Kind::List(ElementSize::Bit, argument),
        10 => Kind::List(ElementSize::Byte, argument),
        11 => Kind::List(ElementSize::TwoBytes, argument),
        12 => Kind::List(ElementSize::FourBytes, argument),
        13 => Kind::List(ElementSize::EightBytes, argument),
        14 => Kind::List(ElementSize::Pointer, argument),
        15 => Kind::List(ElementSize::InlineComposite, argument),
        _ => Kind::Any,
    }
}

/// # Preconditions
///
/// ```text
/// requires inside { section.at + count ≤ length (words_of section.bytes.now) }
/// ```
// The 16 bits at `offset`, counted in 16 bits, of the `count` data words at `section`; zero if they are
// outside.
#[inline]
fn tag_at(section: Place, count: u32, offset: u32) -> u32 {
    let bit = 16 * u64::from(offset);
    let word = bit / 64;
    if word >= u64::from(count) {
        return 0;
    }
    (word_at(section.bytes, section.at as usize + word as usize) >> (bit % 64) & 0xffff) as u32
}

/// # Preconditions
///
/// ```text
/// requires inside { section.at + count ≤ length (words_of section.bytes.now) }
/// requires small { test < 2 ^ 28 }
/// ```
// The kind word that the test at `test` leads to, in a struct with `count` data words at `section`.
#[inline]
fn next_word(table: &[u32], test: usize, section: Place, count: u32) -> u32 {
    if tag_at(section, count, table_word(table, test)) == table_word(table, test + 1) {
        table_word(table, test + 2)
    } else {
        table_word(table, test + 3)
    }
}

/// # Preconditions
///
/// ```text
/// requires inside { section.at + count ≤ length (words_of section.bytes.now) }
/// ```
// The kind word that a kind word leads to, in a struct with `count` data words at `section`.
#[inline(never)]
fn tested_word(table: &[u32], word: u32, section: Place, count: u32) -> u32 {
    let mut word = word;
    let mut first = 0;
    while word % 16 == TEST {
        let test = (word / 16) as usize;
        if test < first || test >= table.len() {
            return 0;
        }
        word = next_word(table, test, section, count);
        first = test + 1;
    }
    word
}

// A row of a table, by its position.
#[derive(Clone, Copy)]
pub(in crate::proved::typed_conforming) struct TableRow<'s> {
    pub(in crate::proved::typed_conforming) table: &'s [u32],
    pub(in crate::proved::typed_conforming) row: u32,
    // The kind words of the row that are in the table. They are found once for all elements of a
    // list.
    kinds: &'s [u32],
}

// The kind words of the row at `row` that are in the table.
#[inline]
fn kinds_of(table: &[u32], row: u32) -> &[u32] {
    let row = row as usize;
    if row >= table.len() {
        return &[];
    }
    let rest = &table[row + 1..];
    &rest[..rest.len().min(table[row] as usize)]
}

/// # Preconditions
///
/// ```text
/// requires inside { section.at + count ≤ length (words_of section.bytes.now) }
/// ```
// The kind word that says what pointer `index` of a row may lead to, in a struct with `count` data
// words at `section`. It names no test, or counts as 0.
#[inline(always)]
pub(in crate::proved::typed_conforming) fn wanted_word(
    row: TableRow<'_>,
    section: Place,
    count: u32,
    index: u32,
) -> u32 {
    let word = table_word(row.kinds, index as usize);
    if word % 16 == TEST {
        return tested_word(row.table, word, section, count);
    }
    word
}

// The row of the structs that a pointer of this kind leads to; one of an empty table, in which every
// pointer may lead to anything, if the kind has none.
#[inline(always)]
pub(in crate::proved::typed_conforming) fn row_below(table: &[u32], kind: Kind) -> TableRow<'_> {
    match kind {
        Kind::Struct(row) | Kind::List(_, row) => TableRow {
            table,
            row,
            kinds: kinds_of(table, row),
        },
        _ => TableRow {
            table: &[],
            row: 0,
            kinds: &[],
        },
    }
}
