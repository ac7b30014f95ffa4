//! What is at a place of a message: the objects of the encoding specification's sections "Structs",
//! "Lists" and "Capabilities (Interfaces)", one level at a time.

use crate::proved::capnp_words::wire_pointer::{ElementSize, StructSize, WirePointer};
use crate::proved::capnp_words::words::word_at;

/// The position of a word in a segment, with the segment's bytes. The segment may be too short to
/// have that word.
#[derive(Clone, Copy)]
pub struct Place<'a> {
    /// The segment's number: below 2^32 in an arena; 2^32 for the bytes of a field's default value,
    /// so that no far pointer leads into them.
    pub segment: u64,
    /// The bytes of the segment; only its whole words count.
    pub bytes: &'a [u8],
    /// The position in the segment, in words.
    pub at: u32,
}

impl<'a> Place<'a> {
    /// The number of whole words in the segment. Precondition: the segment has fewer than 2^32
    /// whole words.
    ///
    /// # Preconditions
    ///
    /// ```text
    /// requires { length self.bytes.now < 8 * 2 ^ 32 }
    /// ```
    #[inline]
    pub fn length(self) -> u32 {
        (self.bytes.len() / 8) as u32
    }

    /// The pointer word at the place; zero if the place is outside of the segment.
    #[inline]
    pub fn word(self) -> WirePointer {
        let at = self.at as usize;
        if at < self.bytes.len() / 8 {
            WirePointer(word_at(self.bytes, at))
        } else {
            WirePointer::null()
        }
    }
}

/// A pointer word that was read, and where it is.
#[derive(Clone, Copy)]
pub struct PointerWord<'a> {
    /// Where the word is.
    pub place: Place<'a>,
    /// The word.
    pub word: WirePointer,
    /// The nesting limit at the word: how many levels of structs and lists may be entered from it.
    pub nesting_limit: i32,
}

/// One object that was read: its own words were checked and charged, but its children weren't read.
#[derive(Clone, Copy)]
pub enum Object<'a> {
    /// Nothing: the pointer is zero.
    Null,
    /// A capability, by its index.
    Capability(u32),
    /// A struct, its data section first.
    Struct {
        /// The first word of the data section.
        start: Place<'a>,
        /// The two sections of the struct.
        size: StructSize,
    },
    /// A list of elements without pointers, from `Void` to `EightBytes`.
    Flat {
        /// The first word of the elements.
        start: Place<'a>,
        /// The element size.
        size: ElementSize,
        /// The number of elements, fewer than 2^29.
        count: u32,
    },
    /// A list of pointers.
    Pointers {
        /// The first pointer.
        start: Place<'a>,
        /// The number of pointers, fewer than 2^29.
        count: u32,
    },
    /// A list of structs.
    Structs {
        /// The first word after the tag.
        start: Place<'a>,
        /// The two sections of each element.
        size: StructSize,
        /// The number of elements, fewer than 2^30.
        count: u32,
    },
}

/// What a reading call expects a pointer to lead to.
#[derive(Clone, Copy)]
pub enum Expected {
    /// A struct.
    Struct,
    /// A list whose elements are at least as wide as this size: `Void` and `InlineComposite` accept
    /// elements of any width except bits.
    List(ElementSize),
    /// A list of bytes that ends in 0.
    Text,
    /// A list of bytes.
    Data,
}

/// What an object is read for.
#[derive(Clone, Copy)]
pub enum Purpose {
    /// The object's value.
    Value,
    /// Only the object's size. A list of void may be outside of its segment, and elements without
    /// width aren't charged.
    Size,
}

/// The pointers of an object, in elements of equal size: a struct and a list of pointers are one
/// element, so that one loop handles all pointers.
#[derive(Clone, Copy)]
pub struct ChildRows<'a> {
    /// The first word of the first element.
    pub start: Place<'a>,
    /// The number of words before the pointers of an element.
    pub data_words: u32,
    /// The number of pointers of an element.
    pub pointers: u32,
    /// The number of elements.
    pub count: u32,
}

/// Returns the pointers of `object`; `None` for a null, a capability, and a list of bits or numbers,
/// which have none.
#[inline]
pub fn rows_of_object(object: Object) -> Option<ChildRows> {
    match object {
        Object::Null | Object::Capability(_) | Object::Flat { .. } => None,
        Object::Struct { start, size } => Some(ChildRows {
            start,
            data_words: u32::from(size.data_words),
            pointers: u32::from(size.pointers),
            count: 1,
        }),
        Object::Pointers { start, count } => Some(ChildRows {
            start,
            data_words: 0,
            pointers: count,
            count: 1,
        }),
        Object::Structs { start, size, count } => Some(ChildRows {
            start,
            data_words: u32::from(size.data_words),
            pointers: u32::from(size.pointers),
            count,
        }),
    }
}
