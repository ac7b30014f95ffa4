//! Edits: changes of a message being built, described as data. Each has a path from the root
//! pointer, and an operation to do at the end of the path.

mod copying;
mod elements;
mod fields;
mod filling;
mod found;
mod path;
mod pointer;
mod tasks;

use self::filling::change_struct;
use self::path::{follow_path, has_words, PathEnd};
use self::pointer::edit_pointer;
use self::tasks::{task_of, Task};
use crate::proved::capnp_arena::arena::{BuilderArena, ReaderArenaImpl, SegmentArray};
use crate::proved::capnp_words::error::ErrorKind;
use crate::proved::capnp_words::wire_pointer::{ElementSize, StructSize};

/// A step of a path.
#[derive(Clone, Copy, Debug, PartialEq, Eq)]
pub enum Step {
    /// From a struct to one of its pointers, by its index.
    Child(u16),
    /// From a list to one of its elements, by the element's index. The element is a pointer or a
    /// struct.
    Element(u32),
}

/// Another message, to copy from. It is read with a limiter of its own.
#[derive(Clone, Copy)]
pub struct Source<'a> {
    /// The message.
    pub arena: &'a ReaderArenaImpl<SegmentArray<'a>>,
    /// How many of its words may be read; `None` for no limit.
    pub budget: Option<usize>,
}

/// What to do at the end of a path.
#[derive(Clone, Copy)]
pub enum Op<'a> {
    /// Make a struct, all zero.
    InitStruct(StructSize),
    /// Make a list of this many elements of this size, all zero or null. The elements aren't
    /// structs, and there are fewer than 2^29.
    InitList(ElementSize, u32),
    /// Make a list of this many structs, fewer than 2^30, all zero. Together they have fewer than
    /// 2^29 words.
    InitStructList(u32, StructSize),
    /// Make a text of this many bytes, fewer than 2^29 - 1, all zero. A zero byte follows them.
    InitText(u32),
    /// Make data of this many bytes, fewer than 2^29, all zero.
    InitData(u32),
    /// Make a text of these bytes, fewer than 2^29 - 1. A zero byte follows them.
    SetText(&'a [u8]),
    /// Make data of these bytes, fewer than 2^29.
    SetData(&'a [u8]),
    /// Make the pointer a capability, by its index.
    SetCapability(u32),
    /// Make the pointer null.
    Clear,
    /// Write a number of 1, 2, 4 or 8 bytes into a struct's data section, at this index, counted in
    /// numbers of its width.
    SetField(ElementSize, u32, u64),
    /// Write a bit of a struct's data section, by its index.
    SetBool(u32, bool),
    /// Write a number of this size, a bit or 1, 2, 4 or 8 bytes, into the lowest bits of the list
    /// element at this index. Looks for the list like `PointerBuilder::get_list` with this size.
    SetElement(ElementSize, u32, u64),
    /// Write a byte of a text, but not the zero after it.
    WriteText(u32, u8),
    /// Write a byte of data.
    WriteData(u32, u8),
    /// Look for a struct, and make it at least this large, like `PointerBuilder::get_struct` with
    /// this size and default. Here and below, a default has fewer than 2^32 words.
    GetStruct(StructSize, Option<&'a [u8]>),
    /// Look for a list, like `PointerBuilder::get_list` with this size and default.
    GetList(ElementSize, Option<&'a [u8]>),
    /// Look for a list, and make it one of structs at least this large, like
    /// `PointerBuilder::get_struct_list` with this size and default.
    GetStructList(StructSize, Option<&'a [u8]>),
    /// Look for a text, like `PointerBuilder::get_text` with this default.
    GetText(Option<&'a [u8]>),
    /// Look for data, like `PointerBuilder::get_data` with this default.
    GetData(Option<&'a [u8]>),
    /// Copy the value of another message's root to the pointer, like `PointerBuilder::copy_from`;
    /// in canonical form if the flag is set.
    CopyFrom(Source<'a>, bool),
    /// Copy the struct that the root of another message leads to, like
    /// `PointerBuilder::set_struct`; in canonical form if the flag is set. If the root is null,
    /// copies a struct without words. Looks for the struct like `PointerReader::get_struct`.
    SetStruct(Source<'a>, bool),
    /// Copy the list that the root of another message leads to, like `PointerBuilder::set_list`; in
    /// canonical form if the flag is set. If the root is null, copies an empty list of `Void`.
    /// Looks for the list like `PointerReader::get_list` with the size `Void`, so it can't be a
    /// list of bits.
    SetList(Source<'a>, bool),
    /// Replace the content of a struct by that of another struct, to which another message's root
    /// leads, like `StructBuilder::copy_content_from`. If the root is null, the new content is
    /// zeros and null pointers. Looks for the other message's struct like
    /// `PointerReader::get_struct`.
    CopyContent(Source<'a>),
}

/// A change of a message: a place, and what to do there.
#[derive(Clone, Copy)]
pub struct Edit<'a> {
    /// The steps from the root pointer to the place.
    pub path: &'a [Step],
    /// What to do at the end of the path.
    pub op: Op<'a>,
}

/// Applies `edit` to the message in `arena`.
///
/// Refuses with `NoSuchPlace`, and changes nothing, if the path leads nowhere, the operation is for
/// a place of another kind, or a number is out of range. An edit that copies also refuses like
/// `PointerReader`'s `get_root_from_arena` if the source's root pointer can't be read; and like
/// `PointerReader`'s `get_struct` or `get_list` if the edit copies a struct, its content, or a
/// list, and the root doesn't lead to a struct or a list that can be read. Such a refusal changes
/// nothing. An edit that looks for a struct, a list, a text or data also refuses like
/// `PointerBuilder`'s `get_struct`, `get_struct_list`, `get_list`, `get_text` or `get_data`. The
/// last paragraph says what such a refusal changes.
///
/// If the arena refuses with `AllocationFailed` or `MessageTooLarge`, or a copy that has begun is
/// refused because of what it reads, the pointer is null afterwards, with two exceptions. If
/// copying a struct's content is refused for one of these reasons, the data and the pointers before
/// the refused one are copied, and the other pointers are null. The second exception is an edit
/// that looks for a struct, a list, a text or data.
///
/// If such an edit has a default and the pointer is null, the edit first makes the pointer lead to
/// a copy of the default's value. If that copy is refused, the pointer is null. If the value found
/// is of the wrong kind, or there is no memory to make it larger, that value stays, whether it is a
/// copy of the default's or was there before.
pub fn apply<A: BuilderArena>(arena: &mut A, edit: &Edit<'_>) -> Result<(), ErrorKind> {
    if !has_words(&*arena, 0, 1) {
        return Err(ErrorKind::NoSuchPlace);
    }
    let Some(end) = follow_path(&*arena, edit.path) else {
        return Err(ErrorKind::NoSuchPlace);
    };
    let Some(task) = task_of(edit.op) else {
        return Err(ErrorKind::NoSuchPlace);
    };
    match end {
        PathEnd::Pointer(place) => edit_pointer(arena, place, task),
        PathEnd::Element(parent) => match task {
            Task::InStruct(change) => change_struct(arena, parent, change),
            _ => Err(ErrorKind::NoSuchPlace),
        },
    }
}

/// Applies `edits` in order, and goes on after a refusal. Stores the outcome of each edit in
/// `outcomes`: `None` if the edit was applied, otherwise the refusal of `apply`. Precondition:
/// `outcomes` is as long as `edits`.
///
/// # Preconditions
///
/// ```text
/// requires { length outcomes.old ≡ length edits.now }
/// ```
pub fn apply_all<A: BuilderArena>(
    arena: &mut A,
    edits: &[Edit<'_>],
    outcomes: &mut [Option<ErrorKind>],
) {
    for (i, edit) in edits.iter().enumerate() {
        outcomes[i] = match apply(arena, edit) {
            Ok(()) => None,
            Err(k) => Some(k),
        };
    }
}
