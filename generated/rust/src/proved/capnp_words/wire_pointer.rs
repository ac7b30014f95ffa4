//! Pointer words: their bits, in the layout of the encoding specification's sections "Structs",
//! "Lists", "Inter-Segment Pointers" and "Capabilities (Interfaces)".

pub use self::ElementSize::{
    Bit, Byte, EightBytes, FourBytes, InlineComposite, Pointer, TwoBytes, Void,
};
use crate::proved::capnp_words::units::{
    BitCount32, ElementCount32, WirePointerCount16, WirePointerCount32, WordCount16, WordCount32,
};

/// The size of a list's elements, by the format's numbers 0 to 7 ("Lists").
#[derive(Clone, Copy, Debug, PartialEq)]
pub enum ElementSize {
    /// No bits.
    Void,
    /// One bit.
    Bit,
    /// One byte.
    Byte,
    /// Two bytes.
    TwoBytes,
    /// Four bytes.
    FourBytes,
    /// Eight bytes that aren't a pointer.
    EightBytes,
    /// One pointer of eight bytes.
    Pointer,
    /// A struct of data words and pointers, whose size is in the list's tag word.
    InlineComposite,
}

/// The number of bits of data of an element of this size: 0 for a pointer and for a struct.
#[inline]
pub fn data_bits_per_element(size: ElementSize) -> BitCount32 {
    match size {
        ElementSize::Void | ElementSize::Pointer | ElementSize::InlineComposite => 0,
        ElementSize::Bit => 1,
        ElementSize::Byte => 8,
        ElementSize::TwoBytes => 16,
        ElementSize::FourBytes => 32,
        ElementSize::EightBytes => 64,
    }
}

/// The number of words that `count` elements take together ("Lists"): the fewest that hold their
/// bits; 0 for pointers and structs. Precondition: `count` is below 2^29.
///
/// # Preconditions
///
/// ```text
/// requires { count < 2 ^ 29 }
/// ```
#[inline]
pub fn words_for_elements(size: ElementSize, count: ElementCount32) -> WordCount32 {
    ((u64::from(count) * u64::from(data_bits_per_element(size)) + 63) / 64) as u32
}

/// Whether each element of the list that `word` describes is one bit, or 1, 2, 4 or 8 bytes of
/// data: neither void, nor a pointer, nor a struct.
#[inline]
pub fn is_primitive_list(word: WirePointer) -> bool {
    !matches!(
        word.list_element_size(),
        ElementSize::Void | ElementSize::Pointer | ElementSize::InlineComposite
    )
}

/// The number of pointers in an element, by its size: 1 for `Pointer`, otherwise 0. (For a struct,
/// the list's tag states it.)
#[inline]
pub fn pointers_per_element(size: ElementSize) -> WirePointerCount32 {
    match size {
        ElementSize::Pointer => 1,
        _ => 0,
    }
}

/// The sizes of the two sections of a struct, data first ("Structs").
#[derive(Clone, Copy, Debug)]
pub struct StructSize {
    /// The data section, in words.
    pub data_words: WordCount16,
    /// The pointer section, in pointers of one word each.
    pub pointers: WirePointerCount16,
}

impl StructSize {
    /// The size of both sections together, in words.
    #[inline]
    pub fn total(&self) -> WordCount32 {
        u32::from(self.data_words) + u32::from(self.pointers)
    }
}

/// The kind of a pointer word, by its lowest two bits.
#[derive(Clone, Copy, PartialEq)]
pub enum WirePointerKind {
    /// A pointer to a struct, or the tag of a struct list. The zero word is of this kind too.
    Struct,
    /// A pointer to a list.
    List,
    /// A pointer to a landing pad.
    Far,
    /// A capability, or a word of no known kind.
    Other,
}

/// What a pointer leads to, after any landing pads.
#[derive(Clone, Copy, Debug, PartialEq, Eq)]
pub enum PointerType {
    /// Nothing: the word is zero.
    Null,
    /// A struct.
    Struct,
    /// A list.
    List,
    /// A capability.
    Capability,
}

/// A pointer word. Any field can be read from any word; whether the field means something depends
/// on the word's kind.
#[derive(Clone, Copy, Debug, PartialEq, Eq)]
pub struct WirePointer(pub u64);

impl WirePointer {
    /// The word of 64 zero bits, which leads to nothing.
    #[inline]
    pub fn null() -> Self {
        WirePointer(0)
    }

    /// The pointer to a struct of no words, in bytes `fcffffff00000000`. Its offset is -1, because
    /// offset 0 would make it null.
    #[inline]
    pub fn empty_struct() -> Self {
        WirePointer(0xffff_fffc)
    }

    /// Makes a pointer to a struct that starts `offset` words after the pointer's end ("Structs").
    /// Precondition: `offset` is from -2^29 to 2^29 - 1.
    ///
    /// # Preconditions
    ///
    /// ```text
    /// requires { IsOffset offset }
    /// ```
    #[inline]
    pub fn new_struct(offset: i32, size: StructSize) -> Self {
        let low = u64::from(offset_bits(offset)) << 2;
        WirePointer(low | struct_upper_half(size) << 32)
    }

    /// Makes the tag of a list of `count` structs, each of size `size` ("Lists"). Precondition:
    /// `count` is below 2^30.
    ///
    /// # Preconditions
    ///
    /// ```text
    /// requires { count < 2 ^ 30 }
    /// ```
    #[inline]
    pub fn new_tag(count: ElementCount32, size: StructSize) -> Self {
        WirePointer(u64::from(count) << 2 | struct_upper_half(size) << 32)
    }

    /// Makes a pointer to a list that starts `offset` words after the pointer's end ("Lists").
    /// `count` is the number of elements; if `size` is `InlineComposite`, it is the number of words
    /// of all elements, without the tag. Preconditions: `offset` is from -2^29 to 2^29 - 1; `count`
    /// is below 2^29.
    ///
    /// # Preconditions
    ///
    /// ```text
    /// requires near { IsOffset offset }
    /// requires few { count < 2 ^ 29 }
    /// ```
    #[inline]
    pub fn new_list(offset: i32, size: ElementSize, count: ElementCount32) -> Self {
        let low = u64::from(offset_bits(offset)) << 2 | 1;
        let upper = u64::from(count) << 3 | size_code(size);
        WirePointer(low | upper << 32)
    }

    /// Makes a pointer to a struct list whose tag is `offset` words after the pointer's end, and
    /// whose elements together take `words` words, without the tag ("Lists"). Preconditions:
    /// `offset` is from -2^29 to 2^29 - 1; `words` is below 2^29.
    ///
    /// # Preconditions
    ///
    /// ```text
    /// requires near { IsOffset offset }
    /// requires few { words < 2 ^ 29 }
    /// ```
    #[inline]
    pub fn new_struct_list(offset: i32, words: WordCount32) -> Self {
        Self::new_list(offset, ElementSize::InlineComposite, words)
    }

    /// Makes a far pointer to a landing pad of one word ("Inter-Segment Pointers"): the pad is the
    /// pointer to the object. The pad is at word `position` of segment `segment`. Precondition:
    /// `position` is below 2^29.
    ///
    /// # Preconditions
    ///
    /// ```text
    /// requires { position < 2 ^ 29 }
    /// ```
    #[inline]
    pub fn new_far(position: WordCount32, segment: u32) -> Self {
        WirePointer(u64::from(position) << 3 | 2 | u64::from(segment) << 32)
    }

    /// Makes a far pointer to a landing pad of two words ("Inter-Segment Pointers"): a far pointer
    /// to the object's start, and the object's tag. The pad starts at word `position` of segment
    /// `segment`. Precondition: `position` is below 2^29.
    ///
    /// # Preconditions
    ///
    /// ```text
    /// requires { position < 2 ^ 29 }
    /// ```
    #[inline]
    pub fn new_double_far(position: WordCount32, segment: u32) -> Self {
        WirePointer(u64::from(position) << 3 | 6 | u64::from(segment) << 32)
    }

    /// Makes a pointer to the capability with this index in the message's capability table
    /// ("Capabilities (Interfaces)").
    #[inline]
    pub fn new_capability(index: u32) -> Self {
        WirePointer(u64::from(index) << 32 | 3)
    }

    /// The kind of the word, by its lowest two bits.
    #[inline]
    pub fn kind(self) -> WirePointerKind {
        match self.0 & 3 {
            0 => WirePointerKind::Struct,
            1 => WirePointerKind::List,
            2 => WirePointerKind::Far,
            _ => WirePointerKind::Other,
        }
    }

    /// Whether the word is zero.
    #[inline]
    pub fn is_null(self) -> bool {
        self.0 == 0
    }

    /// Whether the word has an offset: it is of kind struct or list.
    #[inline]
    pub fn is_positional(self) -> bool {
        self.0 & 3 < 2
    }

    /// Whether the word is a capability: its lower half is exactly 3.
    #[inline]
    pub fn is_capability(self) -> bool {
        self.0 & 0xffff_ffff == 3
    }

    /// The offset, counted in words from the pointer's end: from -2^29 to 2^29 - 1.
    #[inline]
    pub fn offset(self) -> i32 {
        let bits = (self.0 >> 2 & 0x3fff_ffff) as i32;
        if bits < 0x2000_0000 {
            bits
        } else {
            bits - 0x4000_0000
        }
    }

    /// The position that the offset leads to, from a pointer at `position` of a segment of `length`
    /// words. `None` if this position isn't from 0 to `length`.
    #[inline]
    pub fn target(self, position: WordCount32, length: WordCount32) -> Option<WordCount32> {
        let bits = self.0 >> 2 & 0x3fff_ffff;
        let start = u64::from(position) + 1 + bits;
        let length = u64::from(length);
        if bits < 0x2000_0000 {
            if start <= length {
                Some(start as u32)
            } else {
                None
            }
        } else if start >= 0x4000_0000 && start - 0x4000_0000 <= length {
            Some((start - 0x4000_0000) as u32)
        } else {
            None
        }
    }

    /// The number of elements of the struct list whose tag this word is.
    #[inline]
    pub fn inline_composite_list_element_count(self) -> ElementCount32 {
        (self.0 >> 2 & 0x3fff_ffff) as u32
    }

    /// The size of a struct's data section, in words.
    #[inline]
    pub fn struct_data_size(self) -> WordCount16 {
        (self.0 >> 32 & 0xffff) as u16
    }

    /// The number of a struct's pointers.
    #[inline]
    pub fn struct_ptr_count(self) -> WirePointerCount16 {
        (self.0 >> 48) as u16
    }

    /// The sizes of both sections of a struct; if the word is the tag of a struct list, those of
    /// each element.
    #[inline]
    pub fn struct_size(self) -> StructSize {
        StructSize {
            data_words: self.struct_data_size(),
            pointers: self.struct_ptr_count(),
        }
    }

    /// The size of a struct, in words.
    #[inline]
    pub fn struct_word_size(self) -> WordCount32 {
        self.struct_size().total()
    }

    /// The element size of a list.
    #[inline]
    pub fn list_element_size(self) -> ElementSize {
        match self.0 >> 32 & 7 {
            0 => ElementSize::Void,
            1 => ElementSize::Bit,
            2 => ElementSize::Byte,
            3 => ElementSize::TwoBytes,
            4 => ElementSize::FourBytes,
            5 => ElementSize::EightBytes,
            6 => ElementSize::Pointer,
            _ => ElementSize::InlineComposite,
        }
    }

    /// The number of elements of a list; for a struct list, the number of words of all elements,
    /// without the tag.
    #[inline]
    pub fn list_element_count(self) -> ElementCount32 {
        (self.0 >> 35) as u32
    }

    /// The number of words that a struct list claims for its elements, without the tag.
    #[inline]
    pub fn list_inline_composite_word_count(self) -> WordCount32 {
        self.list_element_count()
    }

    /// Whether a far pointer leads to a landing pad of two words.
    #[inline]
    pub fn is_double_far(self) -> bool {
        self.0 >> 2 & 1 == 1
    }

    /// Where a far pointer's landing pad starts, in words from its segment's start.
    #[inline]
    pub fn far_position_in_segment(self) -> WordCount32 {
        (self.0 >> 3 & 0x1fff_ffff) as u32
    }

    /// The number of the segment that a far pointer's landing pad is in.
    #[inline]
    pub fn far_segment_id(self) -> u32 {
        self.upper_half()
    }

    /// A capability's index in the message's capability table.
    #[inline]
    pub fn cap_index(self) -> u32 {
        self.upper_half()
    }

    #[inline]
    fn upper_half(self) -> u32 {
        (self.0 >> 32) as u32
    }
}

/// The offset of a pointer at `position` that leads to `target`, both in words from the start of
/// the same segment. Precondition: the offset from word `position + 1` to word `target` is from
/// -2^29 to 2^29 - 1.
///
/// # Preconditions
///
/// ```text
/// requires { Reaches position target }
/// ```
#[inline]
pub fn offset_between(position: WordCount32, target: WordCount32) -> i32 {
    (i64::from(target) - i64::from(position) - 1) as i32
}

/// # Preconditions
///
/// ```text
/// requires { IsOffset offset }
/// ```
// The 30 bits of an offset.
#[inline]
fn offset_bits(offset: i32) -> u32 {
    offset.cast_unsigned() & 0x3fff_ffff
}

// The upper half of a struct's word.
#[inline]
fn struct_upper_half(size: StructSize) -> u64 {
    u64::from(size.data_words) | u64::from(size.pointers) << 16
}

// The number of an element size.

#[inline]
fn size_code(size: ElementSize) -> u64 {
    match size {
        ElementSize::Void => 0,
        ElementSize::Bit => 1,
        ElementSize::Byte => 2,
        ElementSize::TwoBytes => 3,
        ElementSize::FourBytes => 4,
        ElementSize::EightBytes => 5,
        ElementSize::Pointer => 6,
        ElementSize::InlineComposite => 7,
    }
}
