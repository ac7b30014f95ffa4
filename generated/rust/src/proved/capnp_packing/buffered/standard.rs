//! An input that reads ahead from a reader of the standard library, and an output that buffers bytes
//! for a writer.

use super::{BufferedInput, BufferedOutput};
use crate::proved::capnp_framing::devices::{DeviceFault, Input, Output};
use crate::proved::capnp_framing::framing::read_from_flat_slice;
use crate::proved::support::io::{BufReader, BufWriter, Read, Write};

/// An input that reads ahead from a reader. After the reader has failed once, each read of the
/// input fails without reading from the reader.
pub struct BufReaderInput<R> {
    reader: BufReader<R>,
    failed: bool,
}

impl<R: Read> BufReaderInput<R> {
    /// Makes an input that reads from `reader`, and that hasn't failed yet.
    pub fn new(reader: BufReader<R>) -> Self {
        BufReaderInput {
            reader,
            failed: false,
        }
    }
}

impl<R: Read> Input for BufReaderInput<R> {
    fn read(&mut self, to: &mut [u8]) -> Result<usize, DeviceFault> {
        if self.failed {
            return Err(DeviceFault);
        }
        match self.reader.read(to) {
            Ok(n) => Ok(n),
            Err(_) => {
                self.failed = true;
                Err(DeviceFault)
            }
        }
    }

    fn failed(&self) -> bool {
        self.failed
    }
}

impl<R: Read> BufferedInput for BufReaderInput<R> {
    fn is_ahead(&self) -> bool {
        matches!(
            read_from_flat_slice(self.reader.buffer(), u64::MAX),
            Ok(Some(_))
        )
    }
}

/// An output that buffers bytes for a writer, and flushes them to the writer later.
pub struct BufWriterOutput<W: Write> {
    writer: BufWriter<W>,
    failed: bool,
}

impl<W: Write> BufWriterOutput<W> {
    /// Makes an output that writes to `writer`, and that hasn't failed yet.
    pub fn new(writer: BufWriter<W>) -> Self {
        BufWriterOutput {
            writer,
            failed: false,
        }
    }
}

impl<W: Write> Output for BufWriterOutput<W> {
    fn write(&mut self, from: &[u8]) -> Result<usize, DeviceFault> {
        match self.writer.write(from) {
            Ok(n) if 0 < n || from.is_empty() => Ok(n),
            _ => {
                self.failed = true;
                Err(DeviceFault)
            }
        }
    }

    fn failed(&self) -> bool {
        self.failed
    }
}

impl<W: Write> BufferedOutput for BufWriterOutput<W> {
    fn flush(&mut self) -> Result<(), DeviceFault> {
        if self.writer.flush().is_err() {
            self.failed = true;
            return Err(DeviceFault);
        }
        Ok(())
    }
}
