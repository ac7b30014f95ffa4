//! Devices that move few bytes at a time, and fail after a given number of calls.

use capnp_proved::capnp_framing::devices::{DeviceFault, Input, Output};
use capnp_proved::capnp_packing::buffered::{BufferedInput, BufferedOutput};

/// How many calls of a device succeed, and how many bytes a call moves.
#[derive(Clone, Copy)]
pub struct Strain {
    /// How many calls succeed; later ones fail.
    pub calls: u64,
    /// How many bytes a call moves at most; 0 counts as 1.
    pub most: usize,
}

/// An input that reads bytes in memory.
pub struct StrainedInput<'a> {
    bytes: &'a [u8],
    strain: Strain,
    failed: bool,
}

impl<'a> StrainedInput<'a> {
    /// Makes an input that reads `bytes`, and that hasn't failed yet.
    pub fn new(bytes: &'a [u8], strain: Strain) -> Self {
        StrainedInput {
            bytes,
            strain,
            failed: false,
        }
    }
}

impl Input for StrainedInput<'_> {
    fn read(&mut self, to: &mut [u8]) -> Result<usize, DeviceFault> {
        if self.strain.calls == 0 {
            self.failed = true;
            return Err(DeviceFault);
        }
        self.strain.calls -= 1;
        let n = self.bytes.len().min(to.len()).min(self.strain.most.max(1));
        to[..n].copy_from_slice(&self.bytes[..n]);
        self.bytes = &self.bytes[n..];
        Ok(n)
    }

    fn failed(&self) -> bool {
        self.failed
    }
}

impl BufferedInput for StrainedInput<'_> {
    /// The device reads nothing ahead.
    fn is_ahead(&self) -> bool {
        false
    }
}

/// An output that writes bytes to memory.
pub struct StrainedOutput {
    /// The bytes written.
    pub bytes: Vec<u8>,
    strain: Strain,
    failed: bool,
}

impl StrainedOutput {
    /// Makes an output without bytes that hasn't failed yet.
    pub fn new(strain: Strain) -> Self {
        StrainedOutput {
            bytes: Vec::new(),
            strain,
            failed: false,
        }
    }
}

impl Output for StrainedOutput {
    fn write(&mut self, from: &[u8]) -> Result<usize, DeviceFault> {
        if from.is_empty() {
            return Ok(0);
        }
        if self.strain.calls == 0 {
            self.failed = true;
            return Err(DeviceFault);
        }
        self.strain.calls -= 1;
        let n = from.len().min(self.strain.most.max(1));
        self.bytes.extend_from_slice(&from[..n]);
        Ok(n)
    }

    fn failed(&self) -> bool {
        self.failed
    }
}

impl BufferedOutput for StrainedOutput {
    /// The device buffers no bytes.
    fn flush(&mut self) -> Result<(), DeviceFault> {
        Ok(())
    }
}
