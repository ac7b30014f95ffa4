//! Reads packed bytes ahead, many at a time.

use crate::proved::capnp_framing::devices::{DeviceFault, Input};

/// The number of bytes read at a time.
const CAPACITY: usize = 8192;

/// An input that reads ahead.
pub(super) struct ReadAhead<R> {
    input: R,
    bytes: [u8; CAPACITY],
    // The bytes from `at` to `end` are read and not taken.
    at: usize,
    end: usize,
}

impl<R: Input> ReadAhead<R> {
    /// Wraps an input, and reads nothing yet.
    pub(super) fn new(input: R) -> Self {
        ReadAhead {
            input,
            bytes: [0; CAPACITY],
            at: 0,
            end: 0,
        }
    }

    /// The bytes that are read ahead and not taken yet.
    pub(super) fn buffer(&self) -> &[u8] {
        &self.bytes[self.at..self.end]
    }

    /// Reads some bytes ahead if there are none. Returns whether there are any now: `false` means
    /// the end of the input.
    pub(super) fn fill(&mut self) -> Result<bool, DeviceFault> {
        if self.at < self.end {
            return Ok(true);
        }
        self.at = 0;
        self.end = 0;
        let n = self.input.read(&mut self.bytes)?;
        self.end = n;
        Ok(n > 0)
    }

    /// Takes a byte that is read ahead.
    ///
    /// # Preconditions
    ///
    /// ```text
    /// requires { self.old.at < self.old.end }
    /// ```
    pub(super) fn next(&mut self) -> u8 {
        let byte = self.bytes[self.at];
        self.at += 1;
        byte
    }

    /// Takes `n` bytes that are read ahead.
    ///
    /// # Preconditions
    ///
    /// ```text
    /// requires { self.old.at + n ≤ self.old.end }
    /// ```
    pub(super) fn consume(&mut self, n: usize) {
        self.at += n;
    }
}

impl<R: Input> Input for ReadAhead<R> {
    /// Returns bytes that are read ahead; if there are none, reads directly into `to`.
    fn read(&mut self, to: &mut [u8]) -> Result<usize, DeviceFault> {
        if self.at == self.end {
            return self.input.read(to);
        }
        let n = to.len().min(self.end - self.at);
        to[..n].copy_from_slice(&self.bytes[self.at..self.at + n]);
        self.at += n;
        Ok(n)
    }

    fn failed(&self) -> bool {
        self.input.failed()
    }
}
