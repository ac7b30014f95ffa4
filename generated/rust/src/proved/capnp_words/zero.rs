//! The number zero, by type.

use crate::proved::capnp_words::primitive::Primitive;

/// Numbers with a zero. A field that a struct doesn't have is read as zero.
pub trait Zero: Primitive {
    /// The number 0.
    fn zero() -> Self;
}

impl Zero for u8 {
    #[inline]
    fn zero() -> u8 {
        0
    }
}

impl Zero for u16 {
    #[inline]
    fn zero() -> u16 {
        0
    }
}

impl Zero for u32 {
    #[inline]
    fn zero() -> u32 {
        0
    }
}

impl Zero for u64 {
    #[inline]
    fn zero() -> u64 {
        0
    }
}

impl Zero for i8 {
    #[inline]
    fn zero() -> i8 {
        0
    }
}

impl Zero for i16 {
    #[inline]
    fn zero() -> i16 {
        0
    }
}

impl Zero for i32 {
    #[inline]
    fn zero() -> i32 {
        0
    }
}

impl Zero for i64 {
    #[inline]
    fn zero() -> i64 {
        0
    }
}
