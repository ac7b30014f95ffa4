//! What code is made of that `capnpc-layout-rust` generates from a schema. Programs name the types
//! by the crate's root.

use crate::proved::capnp_pointers::source::Source;
use crate::proved::capnp_readers::readers::{ListReader, PointerReader};
use crate::segments::Arena;
use crate::Outcome;
use core::str;

pub use crate::meter::sealed::Closed;
pub use crate::values::{
    boxed, boxed_or_default, fill, no_struct, own_list, own_list_or_default, Owned,
};
pub use crate::{
    Element, ElementSize, Enum, Error, List, ListBuilder, Lists, Meter, Pointer, PointerBuilder,
    Pointers, Reason, Struct, StructBuilder, StructSize, StructType, Structs, Target, Typed,
    TypedBuilder,
};
pub use core::fmt;
pub use rust_alloc::{boxed::Box, string::String, vec::Vec};

/// What a getter returns that follows a pointer.
pub type Result<T> = core::result::Result<T, Error>;

/// What elements are read from.
pub type RawList<'a> = ListReader<'a, Arena<'a>>;

/// Struct `index` of a list that has it.
#[inline(always)]
pub fn struct_at<'a, M: Meter>(list: &RawList<'a>, meter: M, index: u32) -> Struct<'a, M> {
    Structs::read(list, meter, index)
}

/// The text, or that of these bytes if the pointer is null.
#[inline]
pub fn text_or<'a, M: Meter>(pointer: Pointer<'a, M>, default: &'a [u8]) -> Result<&'a str> {
    if pointer.is_null() {
        return str::from_utf8(default).map_err(|_| Reason::TextIsNotUtf8.into());
    }
    pointer.as_text()
}

/// The bytes of the text, or these bytes if the pointer is null.
#[inline]
pub fn text_bytes_or<'a, M: Meter>(pointer: Pointer<'a, M>, default: &'a [u8]) -> Result<&'a [u8]> {
    if pointer.is_null() {
        return Ok(default);
    }
    pointer.as_text_bytes()
}

/// The data, or these bytes if the pointer is null.
#[inline]
pub fn data_or<'a, M: Meter>(pointer: Pointer<'a, M>, default: &'a [u8]) -> Result<&'a [u8]> {
    if pointer.is_null() {
        return Ok(default);
    }
    pointer.as_data()
}

/// The struct, or that of these words if the pointer is null: a message of one segment.
pub fn struct_or<'a, M: Meter, T: From<Struct<'a, M>>>(
    pointer: Pointer<'a, M>,
    words: &'a [u8],
) -> Result<T> {
    let meter = pointer.meter;
    let raw = meter.charge(|lim| pointer.raw.get_struct(lim, Some(words)))?;
    Ok(Struct { raw, meter }.into())
}

/// The list, or that of these words if the pointer is null: a message of one segment.
pub fn list_or<'a, T: Element + ?Sized, M: Meter>(
    pointer: Pointer<'a, M>,
    words: &'a [u8],
) -> Result<List<'a, T, M>> {
    let meter = pointer.meter;
    let raw = meter.charge(|lim| pointer.raw.get_list(lim, T::SIZE, Some(words)))?;
    Ok(List::of(raw, meter))
}

/// A null pointer of a message that was checked.
fn null_pointer<'a>() -> Pointer<'a, Typed> {
    Pointer {
        raw: PointerReader::new_default(),
        meter: Typed::NEW,
    }
}

/// The struct of a constant: a message of one segment.
pub fn constant_struct<T: From<Struct<'static, Typed>> + fmt::Debug>(words: &'static [u8]) -> T {
    Typed::give(struct_or(null_pointer(), words))
}

/// The list of a constant: a message of one segment.
pub fn constant_list<T: Element + ?Sized>(words: &'static [u8]) -> List<'static, T, Typed> {
    Typed::give(list_or(null_pointer(), words))
}

/// The index of the capability; `None` if the pointer is null. A far pointer may lead to it: no
/// writer makes one, but a message that was checked may have it.
pub fn capability<M: Meter>(pointer: Pointer<'_, M>) -> Result<Option<u32>> {
    if pointer.is_null() {
        return Ok(None);
    }
    match pointer.as_capability() {
        Ok(index) => Ok(Some(index)),
        Err(error) => match pointer.target()? {
            Target::Capability(index) => Ok(Some(index)),
            _ => Err(error),
        },
    }
}

/// A pointer of any kind.
#[inline(always)]
pub fn any<'a, M: Meter>(pointer: Pointer<'a, M>) -> Pointer<'a, M::Plain> {
    pointer.plain()
}

/// A struct without its schema.
#[inline(always)]
pub fn plain<'a, M: Meter>(fields: Struct<'a, M>) -> Struct<'a, M::Plain> {
    Struct {
        raw: fields.raw,
        meter: fields.meter.plain(),
    }
}

/// The text of a constant. Panics if the bytes aren't UTF-8, when the program is compiled.
pub const fn text(bytes: &'static [u8]) -> &'static str {
    match str::from_utf8(bytes) {
        Ok(text) => text,
        Err(_) => panic!("a text isn't UTF-8"),
    }
}

/// What a getter returned, to be shown as the value or as its refusal.
pub fn shown<T, O: Outcome<T>>(read: O) -> Shown<T> {
    Shown(read.into_result())
}

/// What a getter of a struct returned, to be shown as `null` unless it is followed. A null struct may have the same field: without
/// end, if all of it were shown.
pub fn shown_struct<T, O: Outcome<T>>(is_set: bool, read: O) -> ShownStruct<T> {
    ShownStruct(is_set.then(|| shown(read)))
}

/// What a getter of a field with a default value returned, to be shown as `null` unless it is followed.
pub fn shown_or_default<M: Meter, T, O: Outcome<T>>(
    fields: &Struct<'_, M>,
    index: usize,
    read: O,
) -> ShownStruct<T> {
    shown_struct(has_or_default(fields, index), read)
}

/// Whether the pointer isn't null, or is one of a message. In a default value, a null pointer may have the same default value:
/// without end, if all of it were followed.
pub fn has_or_default<M: Meter>(fields: &Struct<'_, M>, index: usize) -> bool {
    fields.has(index) || !matches!(fields.raw.source, Source::Default(_))
}

/// A member of a union that is set and null, to be shown with its name.
pub fn null(member: &'static str) -> NullMember {
    NullMember(member)
}

/// What a getter returned, shown as the value or as its refusal.
pub struct Shown<T>(Result<T>);

impl<T: fmt::Debug> fmt::Debug for Shown<T> {
    fn fmt(&self, f: &mut fmt::Formatter<'_>) -> fmt::Result {
        match &self.0 {
            Ok(value) => value.fmt(f),
            Err(error) => write!(f, "<{}>", error.reason()),
        }
    }
}

/// A struct or a list that is shown like `Shown`, or `null`.
pub struct ShownStruct<T>(Option<Shown<T>>);

impl<T: fmt::Debug> fmt::Debug for ShownStruct<T> {
    fn fmt(&self, f: &mut fmt::Formatter<'_>) -> fmt::Result {
        match &self.0 {
            Some(read) => read.fmt(f),
            None => f.write_str("null"),
        }
    }
}

/// A member of a union that is set and null, shown with its name.
pub struct NullMember(&'static str);

impl fmt::Debug for NullMember {
    fn fmt(&self, f: &mut fmt::Formatter<'_>) -> fmt::Result {
        write!(f, "{}(null)", self.0)
    }
}
