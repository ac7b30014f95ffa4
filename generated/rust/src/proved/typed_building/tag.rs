//! The tags of unions.

/// Which member of a union is set.
#[derive(Clone, Copy, Debug, PartialEq, Eq)]
pub struct UnionTag {
    /// Where the union's tag is in the data section, counted in numbers of 16 bits.
    pub offset: usize,
    /// The number of the member.
    pub number: u16,
}
