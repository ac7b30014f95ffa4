//! Files.

use super::io::{Read, Result, read_to_end};
use super::rt::HostRuntime;
use capnp_proved::support::vec::Vec;

/// A file that is open for reading.
#[derive(Debug)]
pub struct File(std::fs::File);

impl File {
    pub fn open(_rt: &HostRuntime, name: &str) -> Result<File> {
        Ok(File(std::fs::File::open(name)?))
    }

    /// Appends the rest of the file to `to`.
    pub fn read_to_end(&mut self, to: &mut Vec<u8>) -> Result<usize> {
        read_to_end(&mut self.0, to)
    }
}

impl Read for File {
    fn read(&mut self, to: &mut [u8]) -> Result<usize> {
        self.0.read(to)
    }
}
