//! The parts of a struct that a group has.

/// A part of a struct: a number of its data section, or a pointer.
#[derive(Clone, Copy, Debug, PartialEq, Eq)]
pub enum Slot {
    /// The bit at this position of the data section.
    Bit(usize),
    /// The byte at this position of the data section.
    Byte(usize),
    /// The two bytes at this position of the data section, counted in two bytes.
    TwoBytes(usize),
    /// The four bytes at this position of the data section, counted in four bytes.
    FourBytes(usize),
    /// The word at this position of the data section.
    EightBytes(usize),
    /// The pointer with this index.
    Pointer(usize),
}
