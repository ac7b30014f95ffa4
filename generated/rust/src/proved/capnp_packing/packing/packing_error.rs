//! Why bytes in memory aren't packed or unpacked.

use core::fmt;

/// The refusal of a call. `{}` writes the variant's name.
#[derive(Clone, Copy, Debug, PartialEq, Eq)]
pub enum PackingError {
    /// The bytes to pack end inside a word.
    CutWord,
    /// The packed bytes end inside a word or before a count.
    Truncated,
    /// There are more unpacked bytes than the caller's `max_bytes`.
    TooLong,
    /// There is no memory for the result.
    AllocationFailed,
}

impl core::error::Error for PackingError {}

impl PackingError {
    /// The variant's name.
    pub fn name(&self) -> &'static str {
        match self {
            PackingError::CutWord => "CutWord",
            PackingError::Truncated => "Truncated",
            PackingError::TooLong => "TooLong",
            PackingError::AllocationFailed => "AllocationFailed",
        }
    }
}

impl fmt::Display for PackingError {
    fn fmt(&self, f: &mut fmt::Formatter<'_>) -> fmt::Result {
        write!(f, "{}", self.name())
    }
}
