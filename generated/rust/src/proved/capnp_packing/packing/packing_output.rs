//! An output that packs the words written to it, and writes the packed bytes to another output.

use super::words::{pack_words, MOST_BYTES};
use crate::proved::capnp_framing::devices::{DeviceFault, Output};
use crate::proved::capnp_packing::buffered::BufferedOutput;

/// The most packed bytes that are held back.
const CAPACITY: usize = 8192;

/// An output that packs whole words, and writes the packed bytes to another output. Holds packed
/// bytes back until there are many of them, or until `write_pending` is called. A write of 1 to 7 bytes
/// fails, since it has no whole word; any other write fails only if the output of packed bytes has
/// failed.
pub struct PackingOutput<W> {
    packed: W,
    // The bytes from `sent` to `end` are packed, and not yet written.
    pending: [u8; CAPACITY],
    sent: usize,
    end: usize,
    failed: bool,
}

impl<W: Output> PackingOutput<W> {
    /// Makes an output that writes packed bytes to `packed`.
    pub fn new(packed: W) -> Self {
        PackingOutput {
            packed,
            pending: [0; CAPACITY],
            sent: 0,
            end: 0,
            failed: false,
        }
    }

    /// Writes all packed bytes that are held back to the output of packed bytes.
    pub fn write_pending(&mut self) -> Result<(), DeviceFault> {
        while self.sent < self.end {
            match self
                .packed
                .write(subslice(&self.pending, self.sent, self.end))
            {
                Ok(n) => self.sent += n,
                Err(fault) => {
                    self.failed = true;
                    return Err(fault);
                }
            }
        }
        self.sent = 0;
        self.end = 0;
        Ok(())
    }

    /// Returns the output of packed bytes. Packed bytes that are held back are lost, so call
    /// `write_pending` first.
    pub fn into_packed(self) -> W {
        self.packed
    }

    /// Makes room for `MOST_BYTES` packed bytes, if needed by writing all bytes that are held back.
    fn ensure_room(&mut self) -> Result<(), DeviceFault> {
        if self.sent == 0 && CAPACITY - self.end >= MOST_BYTES {
            return Ok(());
        }
        self.write_pending()
    }
}

/// The bytes from `from` up to `to`.
///
/// # Preconditions
///
/// ```text
/// requires order { from ≤ to }
/// requires inside { to ≤ length bytes.now }
/// ```
fn subslice(bytes: &[u8], from: usize, to: usize) -> &[u8] {
    &bytes[from..to]
}

impl<W: Output> Output for PackingOutput<W> {
    fn write(&mut self, from: &[u8]) -> Result<usize, DeviceFault> {
        if from.is_empty() {
            return Ok(0);
        }
        if from.len() < 8 {
            self.failed = true;
            return Err(DeviceFault);
        }
        self.ensure_room()?;
        let done = pack_words(&mut self.pending[self.end..], from);
        self.end += done.given;
        Ok(done.taken)
    }

    fn failed(&self) -> bool {
        self.failed
    }
}

impl<W: BufferedOutput> BufferedOutput for PackingOutput<W> {
    fn flush(&mut self) -> Result<(), DeviceFault> {
        self.write_pending()?;
        if self.packed.flush().is_err() {
            self.failed = true;
            return Err(DeviceFault);
        }
        Ok(())
    }
}
