//! Reads a message by all calls of readers, in a fixed order, from the root pointer to two levels
//! below it.

use crate::elements::{number_at, pointer_at, struct_at};
use crate::output::Output;
use crate::parse::SIZES;
use capnp_proved::capnp_arena::arena::ReaderArena;
use capnp_proved::capnp_readers::readers::{
    ListReader, MessageSize, PointerReader, PrimitiveElement, StructReader,
};
use capnp_proved::capnp_words::error::ErrorKind;
use capnp_proved::capnp_words::read_limiter::ReadLimiter;
use capnp_proved::capnp_words::wire_pointer::{ElementSize, PointerType};
use std::fmt::Display;

/// How many levels below the root pointer are read.
const LEVELS: u32 = 2;

/// How many elements of a list, and how many pointers of a struct, are read.
const FEW: u32 = 3;

/// A default whose root pointer leads to a struct with a pointer to the text `a`.
const STRUCT: [u8; 32] = [
    0, 0, 0, 0, 1, 0, 1, 0, // the root: one word of data, one pointer
    7, 0, 0, 0, 0, 0, 0, 0, // the data
    1, 0, 0, 0, 0x12, 0, 0, 0, // two bytes at the next word
    0x61, 0, 0, 0, 0, 0, 0, 0, // the bytes
];

/// A default whose root pointer leads to a list of two structs, each of one word.
const STRUCTS: [u8; 32] = [
    1, 0, 0, 0, 0x17, 0, 0, 0, // the root: structs in two words after their tag
    8, 0, 0, 0, 1, 0, 0, 0, // the tag: two structs, one word of data
    1, 0, 0, 0, 0, 0, 0, 0, // the first
    0, 0xff, 0, 0, 0, 0, 0, 0, // the second
];

/// A default whose root pointer leads to a list of four bytes, the last of them 0.
const BYTES: [u8; 16] = [
    1, 0, 0, 0, 0x22, 0, 0, 0, // the root: four bytes at the next word
    0x61, 0x62, 0x63, 0, 0xff, 0, 0, 0, // the bytes, and one after them
];

/// A default whose root pointer is null.
const NULL: [u8; 8] = [0; 8];

/// Makes all calls on the message in `arena`, and returns their answers.
pub fn answer<A: ReaderArena>(arena: &A, limiter: ReadLimiter) -> String {
    let mut walk = Walk {
        limiter,
        out: Output::new(),
    };
    walk.walk_message(arena);
    walk.out.into_text()
}

/// The limiter of all calls, and their answers.
struct Walk {
    limiter: ReadLimiter,
    out: Output,
}

impl Walk {
    /// Reads the root pointer and what it leads to. Adds the number of words that the limiter has
    /// left.
    fn walk_message<A: ReaderArena>(&mut self, arena: &A) {
        match PointerReader::get_root_from_arena(arena, &mut self.limiter) {
            Ok(root) => {
                self.walk_pointer(root, LEVELS);
                self.out.push_text("left ");
                self.out.push_words_left(self.limiter.left());
            }
            Err(kind) => {
                self.out.push_text("refused ");
                self.out.push_text(kind.name());
            }
        }
    }

    /// Makes all calls on a pointer, and reads what it leads to, down to `below` levels below it.
    fn walk_pointer<A: ReaderArena>(&mut self, from: PointerReader<'_, A>, below: u32) {
        self.make_leaf_calls(from);
        for size in SIZES {
            self.walk_list(from, size, below);
        }
        self.walk_struct(from, below);
        self.out.push_text("]");
    }

    /// Makes the calls on a pointer whose answers have no further pointers.
    fn make_leaf_calls<A: ReaderArena>(&mut self, from: PointerReader<'_, A>) {
        self.out.push_text("[");
        self.out.push_flag(from.is_null());
        if from.is_null() {
            self.call_with_defaults(from);
        }
        self.push_plain_answers(from);
    }

    /// Reads the list that a pointer leads to, expecting elements of `size`, and the pointers of
    /// its first elements, down to `below` levels.
    fn walk_list<A: ReaderArena>(
        &mut self,
        from: PointerReader<'_, A>,
        size: ElementSize,
        below: u32,
    ) {
        match from.get_list(&mut self.limiter, size, None) {
            Ok(list) => {
                self.push_elements(&list, size);
                if below > 0 {
                    self.walk_children(&list, size, below - 1);
                }
            }
            Err(kind) => self.push_refusal(kind),
        }
    }

    fn walk_children<A: ReaderArena>(
        &mut self,
        list: &ListReader<'_, A>,
        size: ElementSize,
        below: u32,
    ) {
        for index in 0..list.len().min(FEW) {
            if let Some(child) = pointer_to_walk(list, size, index) {
                self.walk_pointer(child, below);
            }
        }
    }

    /// Reads the struct that a pointer leads to, and its first pointers, down to `below` levels.
    fn walk_struct<A: ReaderArena>(&mut self, from: PointerReader<'_, A>, below: u32) {
        match from.get_struct(&mut self.limiter, None) {
            Ok(found) => {
                self.push_fields(found);
                if below > 0 {
                    self.walk_pointers(found, below - 1);
                }
            }
            Err(kind) => self.push_refusal(kind),
        }
    }

    fn walk_pointers<A: ReaderArena>(&mut self, found: StructReader<'_, A>, below: u32) {
        for index in 0..FEW {
            self.walk_pointer(found.get_pointer_field(index as usize), below);
        }
    }

    /// Adds the name of a refusal.
    fn push_refusal(&mut self, kind: ErrorKind) {
        self.out.push_text(kind.name());
        self.out.push_text(";");
    }

    /// Adds the bytes of a text or of data, or the name of the refusal.
    fn push_bytes(&mut self, read: Result<&[u8], ErrorKind>) {
        match read {
            Ok(bytes) => self.out.push_hex(bytes),
            Err(kind) => self.out.push_text(kind.name()),
        }
        self.out.push_text(";");
    }

    /// Adds the number of words and the number of capabilities, or the name of the refusal.
    fn push_size(&mut self, size: Result<MessageSize, ErrorKind>) {
        match size {
            Ok(size) => {
                self.out.push(size.word_count);
                self.out.push_text(" ");
                self.out.push(size.cap_count);
            }
            Err(kind) => self.out.push_text(kind.name()),
        }
        self.out.push_text(";");
    }

    fn push_capability(&mut self, index: Result<u32, ErrorKind>) {
        match index {
            Ok(index) => self.out.push(index),
            Err(kind) => self.out.push_text(kind.name()),
        }
        self.out.push_text(";");
    }

    fn push_pointer_type(&mut self, found: Result<PointerType, ErrorKind>) {
        match found {
            Ok(found) => self.out.push_pointer_type(found),
            Err(kind) => self.out.push_text(kind.name()),
        }
        self.out.push_text(";");
    }

    /// Makes the calls that return no reader, on a pointer, and adds their answers.
    fn push_plain_answers<A: ReaderArena>(&mut self, from: PointerReader<'_, A>) {
        let found = from.get_pointer_type(&mut self.limiter);
        self.push_pointer_type(found);
        self.push_capability(from.get_capability());
        self.push_text_and_data(from, None);
        let size = from.total_size(&mut self.limiter);
        self.push_size(size);
    }

    /// Adds the text that a pointer leads to, and its data.
    fn push_text_and_data<'a, A: ReaderArena>(
        &mut self,
        from: PointerReader<'a, A>,
        default: Option<&'a [u8]>,
    ) {
        let text = from.get_text(&mut self.limiter, default);
        self.push_bytes(text);
        let data = from.get_data(&mut self.limiter, default);
        self.push_bytes(data);
    }

    /// Makes the calls with defaults on a null pointer.
    fn call_with_defaults<A: ReaderArena>(&mut self, from: PointerReader<'_, A>) {
        self.call_with_default(from, &STRUCT);
        self.call_with_default(from, &STRUCTS);
        self.call_with_default(from, &BYTES);
        self.call_with_default(from, &NULL);
    }

    fn call_with_default<'a, A: ReaderArena>(
        &mut self,
        from: PointerReader<'a, A>,
        default: &'a [u8],
    ) {
        self.push_text_and_data(from, Some(default));
        match from.get_struct(&mut self.limiter, Some(default)) {
            Ok(found) => self.push_default_struct(found),
            Err(kind) => self.push_refusal(kind),
        }
        for size in SIZES {
            self.call_with_default_list(from, size, default);
        }
    }

    /// Reads a list of a null pointer with a default, expecting elements of `size`.
    fn call_with_default_list<'a, A: ReaderArena>(
        &mut self,
        from: PointerReader<'a, A>,
        size: ElementSize,
        default: &'a [u8],
    ) {
        match from.get_list(&mut self.limiter, size, Some(default)) {
            Ok(list) => self.push_default_list(&list, size),
            Err(kind) => self.push_refusal(kind),
        }
    }

    /// Adds the struct that was read from a default.
    fn push_default_struct<A: ReaderArena>(&mut self, found: StructReader<'_, A>) {
        self.push_sections(found);
        let first = found.get_pointer_field(0);
        let text = first.get_text(&mut self.limiter, None);
        self.push_bytes(text);
        let size = found.total_size(&mut self.limiter);
        self.push_size(size);
        self.out.push_text(";");
    }

    /// Adds the list that was read from a default: its number of elements, and the last struct.
    fn push_default_list<A: ReaderArena>(&mut self, list: &ListReader<'_, A>, size: ElementSize) {
        self.push_length_and_size(list);
        if size == ElementSize::InlineComposite && !list.is_empty() {
            if let Ok(last) = struct_at(list, list.len() - 1) {
                self.out.push_hex(last.data_bytes());
            }
        }
        self.out.push_text(";");
    }

    /// Adds the number of elements of a list, and their size.
    fn push_length_and_size<A: ReaderArena>(&mut self, list: &ListReader<'_, A>) {
        self.out.push(list.len());
        self.out.push_text(" ");
        self.out.push_element_size(list.get_element_size());
    }

    /// Adds a list and its first elements.
    fn push_elements<A: ReaderArena>(&mut self, list: &ListReader<'_, A>, size: ElementSize) {
        self.push_length_and_size(list);
        for index in 0..list.len().min(FEW) {
            self.out.push_text(" ");
            self.push_element(list, size, index);
        }
        self.out.push_text(";");
    }

    fn push_element<A: ReaderArena>(
        &mut self,
        list: &ListReader<'_, A>,
        size: ElementSize,
        index: u32,
    ) {
        match size {
            ElementSize::Void => {}
            ElementSize::Pointer => {
                if let Ok(pointer) = pointer_at(list, index) {
                    self.out.push_flag(pointer.is_null());
                }
            }
            ElementSize::InlineComposite => {
                if let Ok(found) = struct_at(list, index) {
                    self.push_struct_element(found);
                }
            }
            _ => self.push_number_element(list, size, index),
        }
    }

    fn push_struct_element<A: ReaderArena>(&mut self, found: StructReader<'_, A>) {
        self.push_sections(found);
        let size = found.total_size(&mut self.limiter);
        self.push_size(size);
    }

    fn push_number_element<A: ReaderArena>(
        &mut self,
        list: &ListReader<'_, A>,
        size: ElementSize,
        index: u32,
    ) {
        match size {
            ElementSize::Bit => self.out.push_flag(number_at(list, index).unwrap_or(false)),
            ElementSize::Byte => push_number::<i8, A>(list, index, &mut self.out),
            ElementSize::TwoBytes => push_number::<u16, A>(list, index, &mut self.out),
            ElementSize::FourBytes => push_number::<i32, A>(list, index, &mut self.out),
            _ => push_number::<u64, A>(list, index, &mut self.out),
        }
    }

    /// Adds the data of a struct, and its number of pointers.
    fn push_sections<A: ReaderArena>(&mut self, found: StructReader<'_, A>) {
        self.out.push_hex(found.data_bytes());
        self.out.push_slashed(found.pointer_count());
    }

    /// Adds the sections of a struct, some of its fields, and its size.
    fn push_fields<A: ReaderArena>(&mut self, found: StructReader<'_, A>) {
        self.push_sections(found);
        for step in 0..3u8 {
            push_number_fields(found, step, &mut self.out);
            push_flags(found, step, &mut self.out);
        }
        let size = found.total_size(&mut self.limiter);
        self.push_size(size);
        self.out.push_text(";");
    }
}

/// Adds an element of a list, a number; 0 if there is no such element.
fn push_number<T: PrimitiveElement + Display, A: ReaderArena>(
    list: &ListReader<'_, A>,
    index: u32,
    out: &mut Output,
) {
    match number_at::<T, A>(list, index) {
        Ok(number) => out.push(number),
        Err(_) => out.push_text("0"),
    }
}

/// Adds numbers of a struct; `step` selects which.
fn push_number_fields<A: ReaderArena>(found: StructReader<'_, A>, step: u8, out: &mut Output) {
    let i = usize::from(step);
    out.push_spaced(found.get_data_field::<u8>(7 * i));
    out.push_spaced(found.get_data_field_mask::<i16>(3 * i, -2));
    out.push_spaced(found.get_data_field::<u32>(i));
    out.push_spaced(found.get_data_field::<i64>(i));
}

/// Adds a bit of a struct, and whether a pointer is null; `step` selects which.
fn push_flags<A: ReaderArena>(found: StructReader<'_, A>, step: u8, out: &mut Output) {
    let i = usize::from(step);
    out.push_text(" ");
    out.push_flag(found.get_bool_field_mask(63 * i, i == 1));
    out.push_text(" ");
    out.push_flag(found.is_pointer_field_null(i));
}

/// Returns the pointer from which the walk goes on after element `index`: the element itself if
/// `size` is `Pointer`, or the first pointer of the element as a struct if `size` is
/// `InlineComposite`. Otherwise, or if there is no such element, returns `None`.
fn pointer_to_walk<'a, A: ReaderArena>(
    list: &ListReader<'a, A>,
    size: ElementSize,
    index: u32,
) -> Option<PointerReader<'a, A>> {
    match size {
        ElementSize::Pointer => pointer_at(list, index).ok(),
        ElementSize::InlineComposite => {
            let found = struct_at(list, index).ok()?;
            Some(found.get_pointer_field(0))
        }
        _ => None,
    }
}
