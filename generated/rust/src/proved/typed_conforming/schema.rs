//! A schema as data: a table, which is an array of 32-bit words. Words past its end are 0, so any
//! array is a table.
//!
//! The word at the position of a *row* is the number of pointers that a struct has in the schema.
//! After it comes a *kind word* for each of them. The low four bits of a kind word are its tag, and
//! the others its argument:
//!
//! | Tag | What the pointer may lead to | Argument |
//! |---|---|---|
//! | 0 | anything (`Kind::Any`) | |
//! | 1 | a capability | |
//! | 2 | a text | |
//! | 3 | a text that is UTF-8 | |
//! | 4 | data | |
//! | 5 | a struct | the position of its row |
//! | 6 | a list of any elements | |
//! | 7 | what a test says, which reads the tag of a union | the position of the test |
//! | 8 and a list's element size, from 0 to 7 | a list of such elements | the position of their row |
//!
//! A *test* has four words: where the tag of the union is in the struct's data, counted in 16 bits;
//! a number; the kind word if the tag is that number; the kind word if it isn't. Data that the
//! struct doesn't have reads as 0. A kind word of a test may name a test that is further back in the
//! table; one that names a test further in front, or the same one, counts as 0.

use crate::proved::capnp_words::error::ErrorKind;
use crate::proved::capnp_words::wire_pointer::ElementSize;

/// What a pointer may lead to. A null pointer is always allowed.
///
/// A list is of some kind if the schema's getter accepts it, also where the encoding allows it to
/// have been upgraded: elements may be wider than expected, and numbers or pointers may have become
/// structs (encoding specification, "Lists").
#[derive(Clone, Copy)]
pub enum Kind {
    /// Anything that can be read.
    Any,
    /// A capability.
    Capability,
    /// A text: a list of bytes that ends in 0. Whether it is UTF-8 isn't tested.
    Text,
    /// A text whose bytes before the 0 are UTF-8.
    Utf8,
    /// Data: a list of bytes.
    Data,
    /// A struct, by the position of its row.
    Struct(u32),
    /// A list of any elements.
    AnyList,
    /// A list whose elements have at least this size. Each element, read as a struct, has the row
    /// at this position. So a list of texts has elements of size `Pointer`, and a row whose pointer
    /// 0 is a text.
    List(ElementSize, u32),
}

/// Why a message doesn't conform to a schema, and which of its pointers is at fault: one that can't
/// be read, or that leads to something that it may not lead to.
#[derive(Clone, Copy, Debug, PartialEq, Eq)]
pub struct Misfit {
    /// What `Pointer::validate` says if the pointer can't be read; otherwise what the getter for
    /// its kind says, or `NOT_UTF8`.
    pub error: ErrorKind,
    /// The number of the pointer's segment.
    pub segment: u64,
    /// The position of the pointer in its segment, in words.
    pub word: u32,
    /// The position of the row of the struct that has the pointer, or of the list's elements; 0 for
    /// the first pointer that was tested, and in what a pointer of no row leads to.
    pub row: u32,
    /// The index of the pointer in that struct; 0 for the first pointer, and in a list of pointers.
    pub index: u32,
}

/// The refusal of a text that isn't UTF-8. No other refusal of a test has this name.
pub const NOT_UTF8: ErrorKind = ErrorKind::ExistingListValueIsIncompatibleWithExpectedType;
