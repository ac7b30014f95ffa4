//! Types for counts of bits, bytes, words, elements and pointers, each in several integer widths.

use crate::proved::capnp_words::primitive::Primitive;

/// A count of bits.
pub type BitCount0 = usize;
/// A count of bits, in 8 bits.
pub type BitCount8 = u8;
/// A count of bits, in 16 bits.
pub type BitCount16 = u16;
/// A count of bits, in 32 bits.
pub type BitCount32 = u32;
/// A count of bits, in 64 bits.
pub type BitCount64 = u64;

/// A count of bytes.
pub type ByteCount = usize;
/// A count of bytes, in 8 bits.
pub type ByteCount8 = u8;
/// A count of bytes, in 16 bits.
pub type ByteCount16 = u16;
/// A count of bytes, in 32 bits.
pub type ByteCount32 = u32;
/// A count of bytes, in 64 bits.
pub type ByteCount64 = u64;

/// A count of words, each of 8 bytes.
pub type WordCount = usize;
/// A count of words, in 8 bits.
pub type WordCount8 = u8;
/// A count of words, in 16 bits.
pub type WordCount16 = u16;
/// A count of words, in 32 bits.
pub type WordCount32 = u32;
/// A count of words, in 64 bits.
pub type WordCount64 = u64;

/// A count of a list's elements.
pub type ElementCount = usize;
/// A count of a list's elements, in 8 bits.
pub type ElementCount8 = u8;
/// A count of a list's elements, in 16 bits.
pub type ElementCount16 = u16;
/// A count of a list's elements, in 32 bits.
pub type ElementCount32 = u32;
/// A count of a list's elements, in 64 bits.
pub type ElementCount64 = u64;

/// A count of pointers.
pub type WirePointerCount = usize;
/// A count of pointers, in 8 bits.
pub type WirePointerCount8 = u8;
/// A count of pointers, in 16 bits.
pub type WirePointerCount16 = u16;
/// A count of pointers, in 32 bits.
pub type WirePointerCount32 = u32;
/// A count of pointers, in 64 bits.
pub type WirePointerCount64 = u64;

/// Bits of a byte.
pub const BITS_PER_BYTE: BitCount0 = 8;
/// Bits of a word.
pub const BITS_PER_WORD: BitCount0 = 64;
/// Bytes of a word.
pub const BYTES_PER_WORD: ByteCount = 8;

/// Bits of a pointer.
pub const BITS_PER_POINTER: BitCount0 = 64;
/// Bytes of a pointer.
pub const _BYTES_PER_POINTER: ByteCount = 8;
/// Words of a pointer.
pub const WORDS_PER_POINTER: WordCount = 1;

/// Words of a pointer.
pub const POINTER_SIZE_IN_WORDS: WordCount = 1;

/// The number of bytes that a number of type `T` takes in a message.
#[inline]
pub fn _bytes_per_element<T: Primitive>() -> ByteCount {
    T::BYTES
}

/// The number of bits that a number of type `T` takes in a message.
#[inline]
pub fn bits_per_element<T: Primitive>() -> BitCount0 {
    8 * T::BYTES
}
