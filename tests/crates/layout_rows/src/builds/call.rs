//! The calls of a line.

use crate::calls::Form;
use crate::types::NumberType;

/// A call, by what it is made on.
#[derive(Clone, Copy)]
pub enum Call {
    /// A call on the message.
    Message(MessageCall),
    /// A call on a pointer, a struct or a list: what a reader of it reads.
    Read,
    /// A call on a pointer.
    Pointer(PointerCall),
    /// A call on a pointer that leads to text or to data.
    Bytes(Blob, BlobCall),
    /// A call that copies to a pointer.
    Copy(Copying),
    /// A call on a struct.
    Struct(StructCall),
    /// A call that replaces a struct's content by a copy.
    Content,
    /// A call on a list.
    List(ListCall),
}

/// A call on the message.
#[derive(Clone, Copy)]
pub enum MessageCall {
    /// The words of the message.
    Words,
    /// The number of segments.
    Len,
    /// The number of refused requests for memory.
    Refused,
    /// `size_in_words`.
    Size,
    /// The allocated words of a segment, lent for writing.
    Allocated,
    /// Write a byte of the allocated words of a segment.
    WriteAllocated,
    /// The pointer at a word.
    PointerAt,
}

/// A call on a pointer, except for those on its bytes and those that copy.
#[derive(Clone, Copy)]
pub enum PointerCall {
    Word(WordCall),
    PutDefault,
    Struct(Verb),
    List(Verb),
    StructList(Verb),
}

/// A call that reads or writes only the pointer's word.
#[derive(Clone, Copy)]
pub enum WordCall {
    IsNull,
    Clear,
    SetCapability,
    GetCapability,
}

/// Whether to make an object or to find it, and what to return.
#[derive(Clone, Copy)]
pub enum Verb {
    /// Make the object, and return its place.
    Put,
    /// Make the object, and return its builder.
    Init,
    /// Look for the object, and return its place.
    Find,
    /// Look for the object, and return its builder.
    Get,
}

/// What kind of bytes a pointer leads to.
#[derive(Clone, Copy)]
pub enum Blob {
    Text,
    Data,
}

/// A call on a text or on data.
#[derive(Clone, Copy)]
pub enum BlobCall {
    /// Make zero bytes, and write some of them.
    Init,
    /// Make the given bytes.
    Set,
    /// Look for the bytes.
    Find,
    /// Lend the bytes.
    Get,
    /// Write one of the bytes.
    Write,
}

/// What to copy from another message, the source.
#[derive(Clone, Copy)]
pub enum Copying {
    /// The value of the source's root.
    Value,
    /// The struct that the source's root leads to.
    Struct,
    /// The list that the source's root leads to, of elements of a size.
    List,
    /// An element of the list that the source's root leads to, as a struct.
    Element,
    /// The pointers of the struct that the source's root leads to, as a list.
    Section,
}

/// Whether to read or write a value.
#[derive(Clone, Copy)]
pub enum Access {
    Get,
    Set,
}

/// A call on a struct.
#[derive(Clone, Copy)]
pub enum StructCall {
    Field,
    IsFieldNull,
    Bool(Access),
    Number(NumberType, Access),
}

/// A call on a list.
#[derive(Clone, Copy)]
pub enum ListCall {
    /// An element as a struct.
    Struct,
    /// The pointer of an element.
    Pointer,
    /// An element that is neither a struct nor a pointer.
    Element(Access),
}

/// All calls.
#[rustfmt::skip]
pub const FORMS: [Form<Call>; 65] = [
    ("words", "", 0, Call::Message(MessageCall::Words)),
    ("len", "", 0, Call::Message(MessageCall::Len)),
    ("refused", "", 0, Call::Message(MessageCall::Refused)),
    ("size", "", 0, Call::Message(MessageCall::Size)),
    ("allocated", "c", 1, Call::Message(MessageCall::Allocated)),
    ("write_allocated", "cib", 3, Call::Message(MessageCall::WriteAllocated)),
    ("pointer_at", "cw", 2, Call::Message(MessageCall::PointerAt)),
    ("read", "", 0, Call::Read),
    ("is_null", "", 0, Call::Pointer(PointerCall::Word(WordCall::IsNull))),
    ("clear", "", 0, Call::Pointer(PointerCall::Word(WordCall::Clear))),
    ("set_capability", "c", 1, Call::Pointer(PointerCall::Word(WordCall::SetCapability))),
    ("get_capability", "", 0, Call::Pointer(PointerCall::Word(WordCall::GetCapability))),
    ("init_struct_place", "dp", 2, Call::Pointer(PointerCall::Struct(Verb::Put))),
    ("init_struct", "dp", 2, Call::Pointer(PointerCall::Struct(Verb::Init))),
    ("init_list_place", "sc", 2, Call::Pointer(PointerCall::List(Verb::Put))),
    ("init_list", "sc", 2, Call::Pointer(PointerCall::List(Verb::Init))),
    ("init_struct_list_place", "cdp", 3, Call::Pointer(PointerCall::StructList(Verb::Put))),
    ("init_struct_list", "cdp", 3, Call::Pointer(PointerCall::StructList(Verb::Init))),
    ("put_default", "h", 0, Call::Pointer(PointerCall::PutDefault)),
    ("get_struct_place", "dph", 2, Call::Pointer(PointerCall::Struct(Verb::Find))),
    ("get_struct", "dph", 2, Call::Pointer(PointerCall::Struct(Verb::Get))),
    ("get_list_place", "sh", 1, Call::Pointer(PointerCall::List(Verb::Find))),
    ("get_list", "sh", 1, Call::Pointer(PointerCall::List(Verb::Get))),
    ("get_struct_list_place", "dph", 2, Call::Pointer(PointerCall::StructList(Verb::Find))),
    ("get_struct_list", "dph", 2, Call::Pointer(PointerCall::StructList(Verb::Get))),
    ("init_text", "ch", 1, Call::Bytes(Blob::Text, BlobCall::Init)),
    ("init_data", "ch", 1, Call::Bytes(Blob::Data, BlobCall::Init)),
    ("set_text", "h", 1, Call::Bytes(Blob::Text, BlobCall::Set)),
    ("set_data", "h", 1, Call::Bytes(Blob::Data, BlobCall::Set)),
    ("get_text_place", "h", 0, Call::Bytes(Blob::Text, BlobCall::Find)),
    ("get_data_place", "h", 0, Call::Bytes(Blob::Data, BlobCall::Find)),
    ("get_text", "h", 0, Call::Bytes(Blob::Text, BlobCall::Get)),
    ("get_data", "h", 0, Call::Bytes(Blob::Data, BlobCall::Get)),
    ("write_text", "ib", 2, Call::Bytes(Blob::Text, BlobCall::Write)),
    ("write_data", "ib", 2, Call::Bytes(Blob::Data, BlobCall::Write)),
    ("copy", "glrf", 4, Call::Copy(Copying::Value)),
    ("set_struct", "glrf", 4, Call::Copy(Copying::Struct)),
    ("set_list", "sglrf", 5, Call::Copy(Copying::List)),
    ("set_struct_element", "cglrf", 5, Call::Copy(Copying::Element)),
    ("set_section", "glrf", 4, Call::Copy(Copying::Section)),
    ("content", "glr", 3, Call::Content),
    ("field", "i", 1, Call::Struct(StructCall::Field)),
    ("is_field_null", "i", 1, Call::Struct(StructCall::IsFieldNull)),
    ("set_bool", "ifm", 2, Call::Struct(StructCall::Bool(Access::Set))),
    ("bool", "im", 1, Call::Struct(StructCall::Bool(Access::Get))),
    ("set_u8", "ivm", 2, Call::Struct(StructCall::Number(NumberType::U8, Access::Set))),
    ("set_u16", "ivm", 2, Call::Struct(StructCall::Number(NumberType::U16, Access::Set))),
    ("set_u32", "ivm", 2, Call::Struct(StructCall::Number(NumberType::U32, Access::Set))),
    ("set_u64", "ivm", 2, Call::Struct(StructCall::Number(NumberType::U64, Access::Set))),
    ("set_i8", "ivm", 2, Call::Struct(StructCall::Number(NumberType::I8, Access::Set))),
    ("set_i16", "ivm", 2, Call::Struct(StructCall::Number(NumberType::I16, Access::Set))),
    ("set_i32", "ivm", 2, Call::Struct(StructCall::Number(NumberType::I32, Access::Set))),
    ("set_i64", "ivm", 2, Call::Struct(StructCall::Number(NumberType::I64, Access::Set))),
    ("u8", "im", 1, Call::Struct(StructCall::Number(NumberType::U8, Access::Get))),
    ("u16", "im", 1, Call::Struct(StructCall::Number(NumberType::U16, Access::Get))),
    ("u32", "im", 1, Call::Struct(StructCall::Number(NumberType::U32, Access::Get))),
    ("u64", "im", 1, Call::Struct(StructCall::Number(NumberType::U64, Access::Get))),
    ("i8", "im", 1, Call::Struct(StructCall::Number(NumberType::I8, Access::Get))),
    ("i16", "im", 1, Call::Struct(StructCall::Number(NumberType::I16, Access::Get))),
    ("i32", "im", 1, Call::Struct(StructCall::Number(NumberType::I32, Access::Get))),
    ("i64", "im", 1, Call::Struct(StructCall::Number(NumberType::I64, Access::Get))),
    ("element", "c", 1, Call::List(ListCall::Struct)),
    ("pointer", "c", 1, Call::List(ListCall::Pointer)),
    ("get", "tc", 2, Call::List(ListCall::Element(Access::Get))),
    ("set", "tce", 3, Call::List(ListCall::Element(Access::Set))),
];
