//! Uses the names of `capnp_words` that no other test here uses: units, sizes of elements and of
//! numbers, and results.

use capnp_proved::capnp_words::error::{self, ErrorKind};
use capnp_proved::capnp_words::primitive::Primitive;
use capnp_proved::capnp_words::read_limiter::ReadLimiter;
use capnp_proved::capnp_words::units::*;
use capnp_proved::capnp_words::wire_pointer::{
    data_bits_per_element, pointers_per_element, Byte, EightBytes, ElementSize, FourBytes,
    InlineComposite, Pointer, PointerType, StructSize, TwoBytes,
};

#[test]
fn units() {
    let _bits: (BitCount0, BitCount8, BitCount16, BitCount32, BitCount64) =
        (0usize, 0u8, 0u16, 0u32, 0u64);
    let _bytes: (ByteCount, ByteCount8, ByteCount16, ByteCount32, ByteCount64) =
        (0usize, 0u8, 0u16, 0u32, 0u64);
    let _words: (WordCount, WordCount8, WordCount16, WordCount32, WordCount64) =
        (0usize, 0u8, 0u16, 0u32, 0u64);
    let _elements: (
        ElementCount,
        ElementCount8,
        ElementCount16,
        ElementCount32,
        ElementCount64,
    ) = (0usize, 0u8, 0u16, 0u32, 0u64);
    let _pointers: (
        WirePointerCount,
        WirePointerCount8,
        WirePointerCount16,
        WirePointerCount32,
        WirePointerCount64,
    ) = (0usize, 0u8, 0u16, 0u32, 0u64);
    assert_eq!(
        [BITS_PER_BYTE, BITS_PER_WORD, BITS_PER_POINTER],
        [8, 64, 64]
    );
    assert_eq!([BYTES_PER_WORD, _BYTES_PER_POINTER], [8, 8]);
    assert_eq!([WORDS_PER_POINTER, POINTER_SIZE_IN_WORDS], [1, 1]);
    assert_eq!(_bytes_per_element::<u8>(), 1);
    assert_eq!(bits_per_element::<u16>(), 16);
}

#[test]
fn element_and_struct_sizes() {
    assert_eq!(TwoBytes, ElementSize::TwoBytes);
    assert_eq!(FourBytes, ElementSize::FourBytes);
    assert_eq!(EightBytes, ElementSize::EightBytes);
    assert_eq!(data_bits_per_element(Byte), 8);
    assert_eq!(data_bits_per_element(InlineComposite), 0);
    assert_eq!(pointers_per_element(Pointer), 1);
    assert_eq!(pointers_per_element(Byte), 0);
    let most = StructSize {
        data_words: 65_535,
        pointers: 65_535,
    };
    assert_eq!(most.total(), 131_070);
    assert_ne!(PointerType::List, PointerType::Capability);
}

#[test]
fn bytes_of_numbers() {
    let _arrays: (
        <u8 as Primitive>::Raw,
        <u16 as Primitive>::Raw,
        <u32 as Primitive>::Raw,
        <u64 as Primitive>::Raw,
    ) = ([0u8; 1], [0u8; 2], [0u8; 4], [0u8; 8]);
    assert_eq!(
        [u8::BYTES, u16::BYTES, u32::BYTES, u64::BYTES],
        [1, 2, 4, 8]
    );
    assert_eq!(
        [i8::BYTES, i16::BYTES, i32::BYTES, i64::BYTES],
        [1, 2, 4, 8]
    );
}

#[test]
fn limiter_counts_and_refuses() {
    let mut limiter = ReadLimiter::new(Some(10));
    let granted: error::Result<()> = limiter.can_read(3);
    assert_eq!(granted, Ok(()));
    assert_eq!(limiter.left(), Some(7));
    let refused: error::Result<()> = limiter.can_read(8);
    assert_eq!(refused, Err(ErrorKind::ReadLimitExceeded));
    assert_eq!(limiter.left(), Some(7));
    limiter.count();
    assert_eq!(limiter.followed(), 1);
}
