//! Reads and writes bytes in memory.

use super::{DeviceFault, Input, Output};
use crate::proved::support::alloc::Global;
use crate::proved::support::vec::Vec;

/// Reads bytes in memory. It never fails. A read returns all bytes that are left, or as many as fit
/// in `to`.
#[derive(Clone, Copy)]
pub struct MemoryInput<'a> {
    bytes: &'a [u8],
}

impl<'a> MemoryInput<'a> {
    /// Makes an input that reads `bytes`.
    pub fn new(bytes: &'a [u8]) -> Self {
        MemoryInput { bytes }
    }
}

impl Input for MemoryInput<'_> {
    fn read(&mut self, to: &mut [u8]) -> Result<usize, DeviceFault> {
        let n = to.len().min(self.bytes.len());
        to[..n].copy_from_slice(&self.bytes[..n]);
        self.bytes = &self.bytes[n..];
        Ok(n)
    }

    fn failed(&self) -> bool {
        false
    }
}

/// Collects in memory the bytes that are written to it. A write takes all of its bytes, and fails
/// only if there is no memory for them.
pub struct MemoryOutput {
    bytes: Vec<u8>,
    failed: bool,
}

impl MemoryOutput {
    /// Makes an output without bytes.
    pub fn new(alloc: Global) -> Self {
        MemoryOutput {
            bytes: Vec::new(alloc),
            failed: false,
        }
    }

    /// All bytes written so far.
    pub fn bytes(&self) -> &[u8] {
        self.bytes.as_slice()
    }
}

impl Output for MemoryOutput {
    fn write(&mut self, from: &[u8]) -> Result<usize, DeviceFault> {
        if self.bytes.extend_from_slice(from).is_err() {
            self.failed = true;
            return Err(DeviceFault);
        }
        Ok(from.len())
    }

    fn failed(&self) -> bool {
        self.failed
    }
}
