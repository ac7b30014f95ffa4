//! Masks: a field is stored as the exclusive or of its value and its default, so that a field that
//! holds its default is stored as zero bits.

use crate::proved::capnp_words::primitive::Primitive;

/// Numbers that can be masked by another number with as many bits.
pub trait Mask: Primitive {
    /// The type of a mask: the number's own type.
    type T;

    /// The exclusive or of a number and a mask. Applying the same mask again returns the number.
    fn mask(value: Self, mask: Self::T) -> Self;
}

impl Mask for u8 {
    type T = u8;

    #[inline]
    fn mask(value: u8, mask: u8) -> u8 {
        value ^ mask
    }
}

impl Mask for u16 {
    type T = u16;

    #[inline]
    fn mask(value: u16, mask: u16) -> u16 {
        value ^ mask
    }
}

impl Mask for u32 {
    type T = u32;

    #[inline]
    fn mask(value: u32, mask: u32) -> u32 {
        value ^ mask
    }
}

impl Mask for u64 {
    type T = u64;

    #[inline]
    fn mask(value: u64, mask: u64) -> u64 {
        value ^ mask
    }
}

impl Mask for i8 {
    type T = i8;

    #[inline]
    fn mask(value: i8, mask: i8) -> i8 {
        value ^ mask
    }
}

impl Mask for i16 {
    type T = i16;

    #[inline]
    fn mask(value: i16, mask: i16) -> i16 {
        value ^ mask
    }
}

impl Mask for i32 {
    type T = i32;

    #[inline]
    fn mask(value: i32, mask: i32) -> i32 {
        value ^ mask
    }
}

impl Mask for i64 {
    type T = i64;

    #[inline]
    fn mask(value: i64, mask: i64) -> i64 {
        value ^ mask
    }
}
