//! The calls that a line holds.

use crate::calls::{self, Form, Values};
use crate::parse::{self, Fault};
use crate::types::NumberType;

/// What a call does.
#[derive(Clone, Copy)]
pub enum Op {
    Root,
    NewPointer,
    NewStruct,
    NewList,
    At,
    FromDefault,
    IsNull,
    Type,
    Capability,
    Text,
    Data,
    Struct,
    List,
    Next,
    Size,
    /// Tests a pointer for canonical form; the argument is the head, where its first object has to
    /// start.
    Canonical,
    /// Tests a struct for canonical form, with one head for the struct and one for the objects that
    /// its pointers lead to.
    CanonicalStruct,
    CanonicalShared,
    Number(NumberType),
    Bool,
    Pointer,
    IsPointerNull,
    Section,
    Element,
    /// An element with the list's own nesting limit.
    OwnElement,
    PointerElement,
    Get,
    Bytes,
    Bits,
    Low,
}

const FORMS: [Form<Op>; 37] = [
    ("root", "", 0, Op::Root),
    ("new_pointer", "", 0, Op::NewPointer),
    ("new_struct", "", 0, Op::NewStruct),
    ("new_list", "", 0, Op::NewList),
    ("at", "cwl", 3, Op::At),
    ("from_default", "h", 1, Op::FromDefault),
    ("is_null", "", 0, Op::IsNull),
    ("type", "", 0, Op::Type),
    ("capability", "", 0, Op::Capability),
    ("text", "h", 0, Op::Text),
    ("data", "h", 0, Op::Data),
    ("struct", "h", 0, Op::Struct),
    ("list", "sh", 1, Op::List),
    ("next", "", 0, Op::Next),
    ("size", "", 0, Op::Size),
    ("canonical", "c", 1, Op::Canonical),
    ("canonical", "cwf", 2, Op::CanonicalStruct),
    ("canonical_shared", "cf", 1, Op::CanonicalShared),
    ("u8", "im", 1, Op::Number(NumberType::U8)),
    ("u16", "im", 1, Op::Number(NumberType::U16)),
    ("u32", "im", 1, Op::Number(NumberType::U32)),
    ("u64", "im", 1, Op::Number(NumberType::U64)),
    ("i8", "im", 1, Op::Number(NumberType::I8)),
    ("i16", "im", 1, Op::Number(NumberType::I16)),
    ("i32", "im", 1, Op::Number(NumberType::I32)),
    ("i64", "im", 1, Op::Number(NumberType::I64)),
    ("bool", "im", 1, Op::Bool),
    ("field", "i", 1, Op::Pointer),
    ("is_field_null", "i", 1, Op::IsPointerNull),
    ("section", "", 0, Op::Section),
    ("bytes", "", 0, Op::Bytes),
    ("element", "c", 1, Op::Element),
    ("own_element", "c", 1, Op::OwnElement),
    ("pointer", "c", 1, Op::PointerElement),
    ("get", "tc", 2, Op::Get),
    ("bits", "", 0, Op::Bits),
    ("low", "c", 1, Op::Low),
];

/// A call.
pub struct Call<'l> {
    /// The number of the reader that the call is made on; `None` for the last reader.
    pub of: Option<usize>,
    pub op: Op,
    pub values: Values<'l>,
    /// The bytes of a default.
    pub default: Option<Vec<u8>>,
}

/// Parses calls; each of `words` is one.
pub fn parse_calls<'l>(words: &[&'l str]) -> Result<Vec<Call<'l>>, Fault> {
    words.iter().map(|word| parse_call(word)).collect()
}

/// Parses a call.
fn parse_call(word: &str) -> Result<Call<'_>, Fault> {
    let (of, text) = match word.split_once('.') {
        Some((number, text)) => (Some(parse_reader_number(number)?), text),
        None => (None, word),
    };
    let (op, values) = calls::parse_one_of(&FORMS, text)?;
    let default = values.hex.map(parse::bytes).transpose()?;
    Ok(Call {
        of,
        op,
        values,
        default,
    })
}

/// Parses the number of a reader. Returns `usize::MAX`, which no reader has, for a number that is
/// too large.
fn parse_reader_number(digits: &str) -> Result<usize, Fault> {
    match parse::number(digits) {
        Err(Fault::Unfit) => Ok(usize::MAX),
        read => read,
    }
}
