//! Tests that an output over a writer flushes the writer, which no contract states.

use capnp_proved::capnp_framing::devices::WriterOutput;
use std::cell::Cell;
use std::io::{self, Write};

/// A writer that counts how often it is flushed.
struct Counting<'a> {
    flushes: &'a Cell<u32>,
}

impl Write for Counting<'_> {
    fn write(&mut self, bytes: &[u8]) -> io::Result<usize> {
        Ok(bytes.len())
    }

    fn flush(&mut self) -> io::Result<()> {
        self.flushes.set(self.flushes.get() + 1);
        Ok(())
    }
}

#[test]
fn flush_is_passed_on() {
    let flushes = Cell::new(0);
    let mut output = WriterOutput::new(Counting { flushes: &flushes });
    assert_eq!(output.flush(), Ok(()));
    assert_eq!(flushes.get(), 1);
}
