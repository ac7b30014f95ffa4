//! The error of typed code that readers don't have.

/// A number of an enum or of a union that the schema has no name for.
#[derive(Clone, Copy, Debug, PartialEq, Eq)]
pub struct NotInSchema(pub u16);

impl core::fmt::Display for NotInSchema {
    #[inline]
    fn fmt(&self, f: &mut core::fmt::Formatter<'_>) -> core::fmt::Result {
        write!(f, "number {0} is not in the schema", self.0)
    }
}

impl core::error::Error for NotInSchema {}
