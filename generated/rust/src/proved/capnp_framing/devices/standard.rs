//! Inputs and outputs over the standard library's readers and writers.

use super::{DeviceFault, Input, Output};
use crate::proved::support::io::{Read, Write};

/// Reads the bytes of a reader. An error of the reader becomes a `DeviceFault`, without its reason;
/// after an error, the reader isn't read any more.
pub struct ReaderInput<R> {
    reader: R,
    failed: bool,
}

impl<R: Read> ReaderInput<R> {
    /// Makes an input that reads from `reader`, and that hasn't failed yet.
    pub fn new(reader: R) -> Self {
        ReaderInput {
            reader,
            failed: false,
        }
    }
}

impl<R: Read> Input for ReaderInput<R> {
    fn read(&mut self, to: &mut [u8]) -> Result<usize, DeviceFault> {
        if self.failed {
            return Err(DeviceFault);
        }
        match self.reader.read(to) {
            Ok(n) => Ok(n),
            Err(_) => {
                self.failed = true;
                Err(DeviceFault)
            }
        }
    }

    fn failed(&self) -> bool {
        self.failed
    }
}

/// Writes bytes to a writer. An error of the writer becomes a `DeviceFault`, without its reason.
pub struct WriterOutput<W> {
    writer: W,
    failed: bool,
}

impl<W: Write> WriterOutput<W> {
    /// Makes an output that writes to `writer`, and that hasn't failed yet.
    pub fn new(writer: W) -> Self {
        WriterOutput {
            writer,
            failed: false,
        }
    }

    /// Flushes the writer.
    pub fn flush(&mut self) -> Result<(), DeviceFault> {
        if self.writer.flush().is_err() {
            self.failed = true;
            return Err(DeviceFault);
        }
        Ok(())
    }
}

impl<W: Write> Output for WriterOutput<W> {
    fn write(&mut self, from: &[u8]) -> Result<usize, DeviceFault> {
        match self.writer.write(from) {
            Ok(n) if 0 < n || from.is_empty() => Ok(n),
            _ => {
                self.failed = true;
                Err(DeviceFault)
            }
        }
    }

    fn failed(&self) -> bool {
        self.failed
    }
}
