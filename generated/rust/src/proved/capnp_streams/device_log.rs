//! Watches a device: keeps the first 32 bytes read from it, the number of all bytes read from it,
//! and why it failed.

use crate::proved::support::io::{self, Read, Write};
use core::cell::Cell;

/// The largest number of bytes that a `FirstBytes` keeps.
const KEPT: usize = 32;

/// The first bytes read from a device, at most 32, and the number of all bytes read from it.
#[derive(Clone, Copy)]
pub struct FirstBytes {
    first: [u8; KEPT],
    given: u64,
}

impl FirstBytes {
    /// Makes the `FirstBytes` of a device from which no byte has been read.
    fn new() -> Self {
        FirstBytes {
            first: [0; KEPT],
            given: 0,
        }
    }

    /// The number of bytes kept.
    fn kept_len(&self) -> usize {
        self.given.min(KEPT as u64) as usize
    }

    /// The first bytes, at most 32.
    pub fn first(&self) -> &[u8] {
        let kept = self.kept_len();
        &self.first[..kept]
    }

    /// The number of all bytes read, at most `u64::MAX`.
    pub fn total(&self) -> u64 {
        self.given
    }

    /// Returns the `FirstBytes` after `more` has been read, too.
    fn with_bytes(self, more: &[u8]) -> Self {
        let kept = self.kept_len();
        let count = more.len().min(KEPT - kept);
        let mut first = self.first;
        first[kept..kept + count].copy_from_slice(&more[..count]);
        FirstBytes {
            first,
            given: self.given.saturating_add(more.len() as u64),
        }
    }
}

/// What is known about a device. The caller can read it while the device is lent, or after the
/// device is gone.
pub struct DeviceLog {
    front: Cell<FirstBytes>,
    fault: Cell<Option<io::Error>>,
}

impl DeviceLog {
    /// Makes the `DeviceLog` of a device about which nothing is known yet.
    pub fn new() -> Self {
        DeviceLog {
            front: Cell::new(FirstBytes::new()),
            fault: Cell::new(None),
        }
    }

    /// Returns the first bytes read, and the number of all bytes read.
    pub fn first_bytes(&self) -> FirstBytes {
        self.front.get()
    }

    /// The system's error with which the device failed; `None` if it didn't fail.
    pub fn fault(&self) -> Option<io::Error> {
        let fault = self.fault.take();
        self.fault.set(fault.as_ref().map(same_error));
        fault
    }

    /// Adds bytes that were read to what is known.
    fn log_read(&self, bytes: &[u8]) {
        self.front.set(self.front.get().with_bytes(bytes));
    }

    /// Notes why the device failed.
    fn log_fault(&self, error: &io::Error) {
        self.fault.set(Some(same_error(error)));
    }
}

/// An error like this one.
fn same_error(error: &io::Error) -> io::Error {
    match error.raw_os_error() {
        Some(code) => io::Error::from_raw_os_error(code),
        None => io::Error::from(error.kind()),
    }
}

/// A reader or writer whose reads and failures are noted in `seen`.
pub struct Logged<'a, D> {
    device: D,
    seen: &'a DeviceLog,
}

impl<'a, D> Logged<'a, D> {
    /// Makes a device that reads and writes like `device`, and notes in `seen` the bytes that are
    /// read and why the device fails.
    pub fn new(device: D, seen: &'a DeviceLog) -> Self {
        Logged { device, seen }
    }
}

impl<D: Read> Read for Logged<'_, D> {
    fn read(&mut self, buf: &mut [u8]) -> io::Result<usize> {
        match self.device.read(buf) {
            Ok(n) => {
                self.seen.log_read(&buf[..n]);
                Ok(n)
            }
            Err(error) => {
                self.seen.log_fault(&error);
                Err(error)
            }
        }
    }
}

impl<D: Write> Write for Logged<'_, D> {
    fn write(&mut self, buf: &[u8]) -> io::Result<usize> {
        match self.device.write(buf) {
            Ok(n) => Ok(n),
            Err(error) => {
                self.seen.log_fault(&error);
                Err(error)
            }
        }
    }

    fn flush(&mut self) -> io::Result<()> {
        match self.device.flush() {
            Ok(()) => Ok(()),
            Err(error) => {
                self.seen.log_fault(&error);
                Err(error)
            }
        }
    }
}
