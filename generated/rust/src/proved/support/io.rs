//! Reading and writing, as in Rust; buffers are passed the allocator.

use super::alloc::{AllocError, AllocFailed, Global};
use super::std::io;

pub use super::std::io::{Error, ErrorKind, Read, Result, Write};

impl From<AllocError> for Error {
    fn from(_: AllocError) -> Error {
        Error::from(ErrorKind::OutOfMemory)
    }
}

impl<T> From<AllocFailed<T>> for Error {
    fn from(_: AllocFailed<T>) -> Error {
        Error::from(ErrorKind::OutOfMemory)
    }
}

/// A reader with a buffer.
#[derive(Debug)]
pub struct BufReader<R>(io::BufReader<R>);

impl<R: Read> BufReader<R> {
    pub fn new(_alloc: Global, reader: R) -> Result<Self> {
        Ok(BufReader(io::BufReader::new(reader)))
    }

    pub fn with_capacity(_alloc: Global, n: usize, reader: R) -> Result<Self> {
        Ok(BufReader(io::BufReader::with_capacity(n, reader)))
    }

    /// The bytes that were read ahead.
    pub fn buffer(&self) -> &[u8] {
        self.0.buffer()
    }
}

impl<R: Read> Read for BufReader<R> {
    fn read(&mut self, to: &mut [u8]) -> Result<usize> {
        self.0.read(to)
    }
}

/// A writer with a buffer.
#[derive(Debug)]
pub struct BufWriter<W: Write>(io::BufWriter<W>);

impl<W: Write> BufWriter<W> {
    pub fn new(_alloc: Global, writer: W) -> Result<Self> {
        Ok(BufWriter(io::BufWriter::new(writer)))
    }

    pub fn with_capacity(_alloc: Global, n: usize, writer: W) -> Result<Self> {
        Ok(BufWriter(io::BufWriter::with_capacity(n, writer)))
    }
}

impl<W: Write> Write for BufWriter<W> {
    fn write(&mut self, from: &[u8]) -> Result<usize> {
        self.0.write(from)
    }

    fn flush(&mut self) -> Result<()> {
        self.0.flush()
    }
}
