//! The types of numbers and of elements that a line names.

use crate::calls::{find_form, Form};
use crate::parse::Fault;

/// The type of a number.
#[derive(Clone, Copy)]
pub enum NumberType {
    U8,
    U16,
    U32,
    U64,
    I8,
    I16,
    I32,
    I64,
}

/// The type of an element that is neither a struct nor a pointer.
#[derive(Clone, Copy)]
pub enum ElementType {
    Void,
    Bool,
    Number(NumberType),
}

/// The names of element types. For `find_form`, they are calls without arguments.
const ELEMENT_TYPES: [Form<ElementType>; 10] = [
    ("void", "", 0, ElementType::Void),
    ("bool", "", 0, ElementType::Bool),
    ("u8", "", 0, ElementType::Number(NumberType::U8)),
    ("u16", "", 0, ElementType::Number(NumberType::U16)),
    ("u32", "", 0, ElementType::Number(NumberType::U32)),
    ("u64", "", 0, ElementType::Number(NumberType::U64)),
    ("i8", "", 0, ElementType::Number(NumberType::I8)),
    ("i16", "", 0, ElementType::Number(NumberType::I16)),
    ("i32", "", 0, ElementType::Number(NumberType::I32)),
    ("i64", "", 0, ElementType::Number(NumberType::I64)),
];

/// Returns the element type with this name.
pub fn element_type(name: &str) -> Result<ElementType, Fault> {
    let (_, found) = find_form(&ELEMENT_TYPES, name, 0).ok_or(Fault::Malformed)?;
    Ok(found)
}
