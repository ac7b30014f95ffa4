//! Vectors of lanes in arrays, because `std::simd` isn't stable. LLVM makes vectors of them.

pub mod prelude {
    pub use super::{u64x1, u8x16, u8x32, u8x64, u8x8};
}

/// `N` lanes.
#[derive(Clone, Copy)]
pub struct Lanes<T, const N: usize>([T; N]);

#[allow(non_camel_case_types)]
pub type u8x8 = Lanes<u8, 8>;
#[allow(non_camel_case_types)]
pub type u8x16 = Lanes<u8, 16>;
#[allow(non_camel_case_types)]
pub type u8x32 = Lanes<u8, 32>;
#[allow(non_camel_case_types)]
pub type u8x64 = Lanes<u8, 64>;
#[allow(non_camel_case_types)]
pub type u64x1 = Lanes<u64, 1>;

impl<T: Copy, const N: usize> Lanes<T, N> {
    #[inline(always)]
    pub fn splat(value: T) -> Self {
        Lanes([value; N])
    }

    /// The first `N` elements.
    #[inline(always)]
    pub fn from_slice(from: &[T]) -> Self {
        let mut lanes = [from[0]; N];
        lanes.copy_from_slice(&from[..N]);
        Lanes(lanes)
    }

    /// Writes the first `N` elements.
    #[inline(always)]
    pub fn copy_to_slice(self, to: &mut [T]) {
        to[..N].copy_from_slice(&self.0);
    }
}

impl<const N: usize> Lanes<u8, N> {
    #[inline(always)]
    pub fn reduce_or(self) -> u8 {
        self.0.iter().fold(0, |all, byte| all | byte)
    }
}

impl u64x1 {
    #[inline(always)]
    pub fn to_le_bytes(self) -> u8x8 {
        Lanes(self.0[0].to_le_bytes())
    }
}

/// Which lanes meet a condition.
#[derive(Clone, Copy)]
pub struct Mask<const N: usize>([bool; N]);

impl u8x8 {
    #[inline(always)]
    pub fn simd_ne(self, other: Self) -> Mask<8> {
        let mut unlike = [false; 8];
        for i in 0..8 {
            unlike[i] = self.0[i] != other.0[i];
        }
        Mask(unlike)
    }
}

impl Mask<8> {
    /// The lanes as bits, the first one lowest.
    #[inline(always)]
    pub fn to_bitmask(self) -> u64 {
        let mut bits = 0;
        for i in 0..8 {
            bits |= u64::from(self.0[i]) << i;
        }
        bits
    }
}
