//! Numbers in a message: little-endian bytes.

/// Numbers that a message can hold.
pub trait Primitive {
    /// An array of the number's bytes, the lowest byte first.
    type Raw;

    /// The size of the number in bytes.
    const BYTES: usize;

    /// The number in the array.
    fn get(raw: &Self::Raw) -> Self;

    /// Stores a number in the array.
    fn set(raw: &mut Self::Raw, value: Self);

    /// Returns the number that `bytes` holds. Precondition: `bytes` has `BYTES` bytes.
    ///
    /// # Preconditions
    ///
    /// ```text
    /// requires { length bytes.now ≡ BYTES }
    /// ```
    fn load(bytes: &[u8]) -> Self;

    /// Stores the number in `bytes`. Precondition: `bytes` has `BYTES` bytes.
    ///
    /// # Preconditions
    ///
    /// ```text
    /// requires { length bytes.old ≡ BYTES }
    /// ```
    fn store(self, bytes: &mut [u8]);
}

impl Primitive for u8 {
    type Raw = [u8; 1];

    const BYTES: usize = 1;

    #[inline]
    fn get(raw: &[u8; 1]) -> u8 {
        u8::from_le_bytes(*raw)
    }

    #[inline]
    fn set(raw: &mut [u8; 1], value: u8) {
        *raw = value.to_le_bytes();
    }

    #[inline]
    fn load(bytes: &[u8]) -> u8 {
        bytes[0]
    }

    #[inline]
    fn store(self, bytes: &mut [u8]) {
        bytes[0] = self;
    }
}

impl Primitive for u16 {
    type Raw = [u8; 2];

    const BYTES: usize = 2;

    #[inline]
    fn get(raw: &[u8; 2]) -> u16 {
        u16::from_le_bytes(*raw)
    }

    #[inline]
    fn set(raw: &mut [u8; 2], value: u16) {
        *raw = value.to_le_bytes();
    }

    #[inline]
    fn load(bytes: &[u8]) -> u16 {
        u16::from_le_bytes([bytes[0], bytes[1]])
    }

    #[inline]
    fn store(self, bytes: &mut [u8]) {
        bytes.copy_from_slice(self.to_le_bytes().as_slice());
    }
}

impl Primitive for u32 {
    type Raw = [u8; 4];

    const BYTES: usize = 4;

    #[inline]
    fn get(raw: &[u8; 4]) -> u32 {
        u32::from_le_bytes(*raw)
    }

    #[inline]
    fn set(raw: &mut [u8; 4], value: u32) {
        *raw = value.to_le_bytes();
    }

    #[inline]
    fn load(bytes: &[u8]) -> u32 {
        u32::from_le_bytes([bytes[0], bytes[1], bytes[2], bytes[3]])
    }

    #[inline]
    fn store(self, bytes: &mut [u8]) {
        bytes.copy_from_slice(self.to_le_bytes().as_slice());
    }
}

impl Primitive for u64 {
    type Raw = [u8; 8];

    const BYTES: usize = 8;

    #[inline]
    fn get(raw: &[u8; 8]) -> u64 {
        u64::from_le_bytes(*raw)
    }

    #[inline]
    fn set(raw: &mut [u8; 8], value: u64) {
        *raw = value.to_le_bytes();
    }

    #[inline]
    fn load(bytes: &[u8]) -> u64 {
        u64::from_le_bytes([
            bytes[0], bytes[1], bytes[2], bytes[3], bytes[4], bytes[5], bytes[6], bytes[7],
        ])
    }

    #[inline]
    fn store(self, bytes: &mut [u8]) {
        bytes.copy_from_slice(self.to_le_bytes().as_slice());
    }
}

impl Primitive for i8 {
    type Raw = [u8; 1];

    const BYTES: usize = 1;

    #[inline]
    fn get(raw: &[u8; 1]) -> i8 {
        i8::from_le_bytes(*raw)
    }

    #[inline]
    fn set(raw: &mut [u8; 1], value: i8) {
        *raw = value.to_le_bytes();
    }

    #[inline]
    fn load(bytes: &[u8]) -> i8 {
        bytes[0].cast_signed()
    }

    #[inline]
    fn store(self, bytes: &mut [u8]) {
        bytes[0] = self.cast_unsigned();
    }
}

impl Primitive for i16 {
    type Raw = [u8; 2];

    const BYTES: usize = 2;

    #[inline]
    fn get(raw: &[u8; 2]) -> i16 {
        i16::from_le_bytes(*raw)
    }

    #[inline]
    fn set(raw: &mut [u8; 2], value: i16) {
        *raw = value.to_le_bytes();
    }

    #[inline]
    fn load(bytes: &[u8]) -> i16 {
        i16::from_le_bytes([bytes[0], bytes[1]])
    }

    #[inline]
    fn store(self, bytes: &mut [u8]) {
        bytes.copy_from_slice(self.to_le_bytes().as_slice());
    }
}

impl Primitive for i32 {
    type Raw = [u8; 4];

    const BYTES: usize = 4;

    #[inline]
    fn get(raw: &[u8; 4]) -> i32 {
        i32::from_le_bytes(*raw)
    }

    #[inline]
    fn set(raw: &mut [u8; 4], value: i32) {
        *raw = value.to_le_bytes();
    }

    #[inline]
    fn load(bytes: &[u8]) -> i32 {
        i32::from_le_bytes([bytes[0], bytes[1], bytes[2], bytes[3]])
    }

    #[inline]
    fn store(self, bytes: &mut [u8]) {
        bytes.copy_from_slice(self.to_le_bytes().as_slice());
    }
}

impl Primitive for i64 {
    type Raw = [u8; 8];

    const BYTES: usize = 8;

    #[inline]
    fn get(raw: &[u8; 8]) -> i64 {
        i64::from_le_bytes(*raw)
    }

    #[inline]
    fn set(raw: &mut [u8; 8], value: i64) {
        *raw = value.to_le_bytes();
    }

    #[inline]
    fn load(bytes: &[u8]) -> i64 {
        i64::from_le_bytes([
            bytes[0], bytes[1], bytes[2], bytes[3], bytes[4], bytes[5], bytes[6], bytes[7],
        ])
    }

    #[inline]
    fn store(self, bytes: &mut [u8]) {
        bytes.copy_from_slice(self.to_le_bytes().as_slice());
    }
}
