//! Reading and writing, with standard input and output from the runtime.

use super::rt::HostRuntime;
use capnp_proved::support::vec::Vec;
use std::io;

pub use capnp_proved::support::io::*;
pub use std::io::IsTerminal;

/// Appends the rest of what `reader` reads to `to`.
pub fn read_to_end<R: Read>(reader: &mut R, to: &mut Vec<u8>) -> Result<usize> {
    let mut piece = [0; 4096];
    let mut count = 0;
    loop {
        match reader.read(&mut piece) {
            Ok(0) => return Ok(count),
            Ok(n) => {
                to.extend_from_slice(&piece[..n])?;
                count += n;
            }
            Err(error) if error.kind() == ErrorKind::Interrupted => {}
            Err(error) => return Err(error),
        }
    }
}

/// Standard input.
pub struct Reader;

impl Reader {
    pub fn read_to_end(&mut self, to: &mut Vec<u8>) -> Result<usize> {
        read_to_end(self, to)
    }
}

impl Read for Reader {
    fn read(&mut self, to: &mut [u8]) -> Result<usize> {
        io::stdin().read(to)
    }
}

/// Standard output.
pub struct Writer;

/// Standard output.
pub fn writer(_rt: &HostRuntime) -> Writer {
    Writer
}

impl Write for Writer {
    fn write(&mut self, from: &[u8]) -> Result<usize> {
        io::stdout().write(from)
    }

    fn flush(&mut self) -> Result<()> {
        io::stdout().flush()
    }
}
