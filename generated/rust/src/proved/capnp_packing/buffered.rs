//! Devices that buffer bytes: an input that reads ahead, and an output that flushes later. Suppose
//! that a peer waits for an answer before it sends more. The peer gets the answer if the program
//! flushes the output before each read that may wait for input.

#[cfg(feature = "std")]
mod standard;

use crate::proved::capnp_framing::devices::{DeviceFault, Input, MemoryOutput, Output};
#[cfg(feature = "std")]
pub use standard::{BufReaderInput, BufWriterOutput};

/// An input that reads ahead.
pub trait BufferedInput: Input {
    /// Returns `true` only if enough bytes are read ahead to read the next message without waiting
    /// for input; for `UnpackingInput`, to read the next unpacked word.
    fn is_ahead(&self) -> bool;
}

/// An output that flushes bytes later.
pub trait BufferedOutput: Output {
    /// Flushes all bytes that the output has taken.
    fn flush(&mut self) -> Result<(), DeviceFault>;
}

impl BufferedOutput for MemoryOutput {
    fn flush(&mut self) -> Result<(), DeviceFault> {
        Ok(())
    }
}

/// Flushes the output, unless `is_ahead` of the input is `true`. Precondition: `output` hasn't
/// failed.
///
/// # Preconditions
///
/// ```text
/// requires { W.has_failed output.old ≡ false }
/// ```
pub fn flush_before_waiting<R: BufferedInput, W: BufferedOutput>(
    input: &R,
    output: &mut W,
) -> Result<(), DeviceFault> {
    if input.is_ahead() {
        return Ok(());
    }
    output.flush()
}
