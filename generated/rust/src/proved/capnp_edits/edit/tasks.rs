//! Tasks: the operations of edits, grouped by what they do.

use crate::proved::capnp_edits::edit::copying::{Copying, Wanted};
use crate::proved::capnp_edits::edit::{Op, Source};
use crate::proved::capnp_words::wire_pointer::{ElementSize, StructSize};

/// An object to make.
#[derive(Clone, Copy)]
pub(in crate::proved::capnp_edits) enum NewObject<'a> {
    /// A struct, all zero.
    ZeroStruct(StructSize),
    /// A list of this many elements that aren't structs, all zero or null.
    ZeroList(ElementSize, u32),
    /// A list of this many structs, all zero.
    ZeroStructs(u32, StructSize),
    /// A text of this many bytes, all zero, followed by a zero byte.
    ZeroText(u32),
    /// A text of these bytes, followed by a zero byte.
    Text(&'a [u8]),
    /// Data of these bytes.
    Data(&'a [u8]),
}

/// A bit, or a number of 1, 2, 4 or 8 bytes, to write at an index.
#[derive(Clone, Copy)]
pub(in crate::proved::capnp_edits) struct Number {
    /// The width of the number.
    pub(in crate::proved::capnp_edits) size: ElementSize,
    /// The index, counted in numbers of that width.
    pub(in crate::proved::capnp_edits) index: u32,
    /// The value to write.
    pub(in crate::proved::capnp_edits) value: u64,
}

/// A change of a struct, at a pointer that leads to one or at an element of a list.
#[derive(Clone, Copy)]
pub(in crate::proved::capnp_edits) enum StructChange<'a> {
    /// Write a number into the struct's data section.
    Bits(Number),
    /// Replace the struct's content by that of another struct, to which another message's root
    /// leads.
    Content(Source<'a>),
}

/// A number or a byte to write, and where in a list, a text or data.
#[derive(Clone, Copy)]
pub(in crate::proved::capnp_edits) enum Part {
    /// Into the lowest bits of an element of a list: this number.
    ListElement(Number),
    /// At this index of a text: this byte.
    TextByte(u32, u8),
    /// At this index of data: this byte.
    DataByte(u32, u8),
}

/// What to look for.
#[derive(Clone, Copy)]
pub(in crate::proved::capnp_edits) enum Sought {
    /// A struct at least this large.
    Struct(StructSize),
    /// A list with elements of this size or wider.
    List(ElementSize),
    /// A list of structs at least this large.
    StructList(StructSize),
    /// A text.
    Text,
    /// Data.
    Data,
}

/// An operation, by what it does. Its numbers are in range if `task_of` returned it.
#[derive(Clone, Copy)]
pub(in crate::proved::capnp_edits) enum Task<'a> {
    /// Make the pointer lead to a new object.
    Make(NewObject<'a>),
    /// Make the pointer lead to the capability with this index; for `None`, make it null.
    Point(Option<u32>),
    /// Change a struct.
    InStruct(StructChange<'a>),
    /// Write a number into a list, or a byte into a text or data.
    Write(Part),
    /// Look for something, with a default.
    Search(Sought, Option<&'a [u8]>),
    /// Copy the value of another message's root to the pointer.
    CopyRoot(Copying<'a>),
}

// Lists have fewer elements than this, and lists of structs fewer words.
const LIST_LIMIT: u32 = 0x2000_0000;

// Defaults have fewer words than this.
const DEFAULT_LIMIT: usize = 0x1_0000_0000;

/// Whether `size` is a bit or 1, 2, 4 or 8 bytes, and `value` fits it.
fn is_number(size: ElementSize, value: u64) -> bool {
    match size {
        ElementSize::Bit => value <= 1,
        ElementSize::Byte => value <= u64::from(u8::MAX),
        ElementSize::TwoBytes => value <= u64::from(u16::MAX),
        ElementSize::FourBytes => value <= u64::from(u32::MAX),
        ElementSize::EightBytes => true,
        _ => false,
    }
}

/// Whether there is no default, or it has fewer words than `DEFAULT_LIMIT`.
fn is_small_default(default: Option<&[u8]>) -> bool {
    match default {
        Some(bytes) => bytes.len() / 8 < DEFAULT_LIMIT,
        None => true,
    }
}

/// Whether a pointer can lead to an object as large as `object`, and a `ZeroList` isn't one of
/// structs.
fn is_object(object: NewObject<'_>) -> bool {
    match object {
        NewObject::ZeroStruct(_) => true,
        NewObject::ZeroList(size, count) => {
            size != ElementSize::InlineComposite && count < LIST_LIMIT
        }
        NewObject::ZeroStructs(count, size) => {
            count < 2 * LIST_LIMIT
                && u64::from(count) * u64::from(size.total()) < u64::from(LIST_LIMIT)
        }
        NewObject::ZeroText(size) => size < LIST_LIMIT - 1,
        NewObject::Text(bytes) => bytes.len() < LIST_LIMIT as usize - 1,
        NewObject::Data(bytes) => bytes.len() < LIST_LIMIT as usize,
    }
}

/// Whether there is no default, or it has fewer words than `DEFAULT_LIMIT`; and `sought` isn't a
/// `List` of structs.
fn is_search_in_range(sought: Sought, default: Option<&[u8]>) -> bool {
    match sought {
        Sought::List(size) => size != ElementSize::InlineComposite && is_small_default(default),
        Sought::Struct(_) | Sought::StructList(_) | Sought::Text | Sought::Data => {
            is_small_default(default)
        }
    }
}

/// Whether the numbers of `task` are in range: a pointer can lead to an object as large as the one
/// to make, a number to write fits its width, a default has fewer words than `DEFAULT_LIMIT`, and a
/// `ZeroList` or a `List` isn't one of structs.
fn is_in_range(task: Task<'_>) -> bool {
    match task {
        Task::Make(object) => is_object(object),
        Task::InStruct(StructChange::Bits(number)) => is_number(number.size, number.value),
        Task::Write(Part::ListElement(number)) => is_number(number.size, number.value),
        Task::Search(sought, default) => is_search_in_range(sought, default),
        Task::InStruct(StructChange::Content(_)) => true,
        Task::Write(Part::TextByte(_, _)) | Task::Write(Part::DataByte(_, _)) => true,
        Task::Point(_) | Task::CopyRoot(_) => true,
    }
}

/// The task of copying the value of another message's root.
fn copy_task(source: Source<'_>, wanted: Wanted, canonicalize: bool) -> Task<'_> {
    Task::CopyRoot(Copying {
        source,
        wanted,
        canonicalize,
    })
}

/// The task of writing a number into a data section.
fn field_task<'a>(size: ElementSize, index: u32, value: u64) -> Task<'a> {
    Task::InStruct(StructChange::Bits(Number { size, index, value }))
}

/// The task of the operation `op`, whether or not its numbers are in range.
fn as_task(op: Op<'_>) -> Task<'_> {
    match op {
        Op::InitStruct(size) => Task::Make(NewObject::ZeroStruct(size)),
        Op::InitList(size, count) => Task::Make(NewObject::ZeroList(size, count)),
        Op::InitStructList(count, size) => Task::Make(NewObject::ZeroStructs(count, size)),
        Op::InitText(size) => Task::Make(NewObject::ZeroText(size)),
        Op::InitData(size) => Task::Make(NewObject::ZeroList(ElementSize::Byte, size)),
        Op::SetText(bytes) => Task::Make(NewObject::Text(bytes)),
        Op::SetData(bytes) => Task::Make(NewObject::Data(bytes)),
        Op::SetCapability(index) => Task::Point(Some(index)),
        Op::Clear => Task::Point(None),
        Op::SetField(size, index, value) => field_task(size, index, value),
        Op::SetBool(index, value) => field_task(ElementSize::Bit, index, u64::from(value)),
        Op::CopyContent(source) => Task::InStruct(StructChange::Content(source)),
        Op::SetElement(size, index, value) => {
            Task::Write(Part::ListElement(Number { size, index, value }))
        }
        Op::WriteText(index, value) => Task::Write(Part::TextByte(index, value)),
        Op::WriteData(index, value) => Task::Write(Part::DataByte(index, value)),
        Op::GetStruct(size, default) => Task::Search(Sought::Struct(size), default),
        Op::GetList(size, default) => Task::Search(Sought::List(size), default),
        Op::GetStructList(size, default) => Task::Search(Sought::StructList(size), default),
        Op::GetText(default) => Task::Search(Sought::Text, default),
        Op::GetData(default) => Task::Search(Sought::Data, default),
        Op::CopyFrom(source, canonicalize) => copy_task(source, Wanted::Value, canonicalize),
        Op::SetStruct(source, canonicalize) => copy_task(source, Wanted::Struct, canonicalize),
        Op::SetList(source, canonicalize) => copy_task(source, Wanted::List, canonicalize),
    }
}

/// The task of the operation `op`; `None` if its numbers aren't in range, or if it is an
/// `Op::SetField` of a bit, for which there is `Op::SetBool`.
pub(in crate::proved::capnp_edits) fn task_of(op: Op<'_>) -> Option<Task<'_>> {
    if let Op::SetField(ElementSize::Bit, _, _) = op {
        return None;
    }
    let task = as_task(op);
    if is_in_range(task) {
        Some(task)
    } else {
        None
    }
}
