//! Calls of slices that take an allocator or can fail.

use capnp_proved::support::alloc::{AllocError, Global};
use capnp_proved::support::string::String;
use capnp_proved::support::vec::Vec;

/// A slice that is copied.
pub trait Copied<T> {
    fn copied_in(&self, alloc: Global) -> Result<Vec<T>, AllocError>;
}

impl<T: Copy> Copied<T> for [T] {
    fn copied_in(&self, alloc: Global) -> Result<Vec<T>, AllocError> {
        let mut copy = Vec::new(alloc);
        for item in self {
            copy.push(*item)?;
        }
        Ok(copy)
    }
}

/// Texts that are sorted.
pub trait Sorted {
    fn sort_texts(&mut self) -> Result<(), AllocError>;
}

impl Sorted for Vec<String> {
    fn sort_texts(&mut self) -> Result<(), AllocError> {
        self.sort_by(|one, other| one.as_str().cmp(other.as_str()));
        Ok(())
    }
}
