//! Inputs and outputs of bytes. After a device has failed once, its `failed` returns `true`
//! forever.

mod memory;
#[cfg(feature = "std")]
mod standard;
mod writing;

pub use memory::{MemoryInput, MemoryOutput};
#[cfg(feature = "std")]
pub use standard::{ReaderInput, WriterOutput};
pub use writing::write_all;

/// A device failed to read or write. The reason isn't known.
#[derive(Clone, Copy, Debug, PartialEq, Eq)]
pub struct DeviceFault;

/// A source of bytes.
pub trait Input {
    /// Reads at most `to.len()` bytes to the front of `to`, and returns their number. If `to` isn't
    /// empty, 0 means the end of the input. A read that fails consumes no bytes of the input.
    fn read(&mut self, to: &mut [u8]) -> Result<usize, DeviceFault>;

    /// Whether a read has failed.
    fn failed(&self) -> bool;
}

/// A destination of bytes.
pub trait Output {
    /// Writes bytes from the front of `from`, and returns their number: at least 1 unless `from` is
    /// empty. A write that fails writes no bytes.
    fn write(&mut self, from: &[u8]) -> Result<usize, DeviceFault>;

    /// Whether a write has failed.
    fn failed(&self) -> bool;
}
