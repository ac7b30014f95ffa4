//! An output that drops all bytes; one that takes no more than a number of bytes; and outputs that
//! put a name before each line, or a name and a number at its end.

use crate::proved::capnp_framing::devices::{write_all, DeviceFault, Output};
use crate::proved::capnp_messages::text::write_number;
use crate::proved::capnp_packing::buffered::BufferedOutput;

/// An output that drops all bytes.
#[derive(Clone, Copy)]
pub struct NoOutput;

impl Output for NoOutput {
    fn write(&mut self, from: &[u8]) -> Result<usize, DeviceFault> {
        Ok(from.len())
    }

    fn failed(&self) -> bool {
        false
    }
}

impl BufferedOutput for NoOutput {
    fn flush(&mut self) -> Result<(), DeviceFault> {
        Ok(())
    }
}

/// An output that writes to `output`, but at most a number of bytes. Bytes that are more than what
/// is left of this number fail as a whole, and all bytes after them, too.
pub struct BoundedOutput<W> {
    output: W,
    // How many bytes may still be written.
    left: u64,
    // Whether bytes were more than that.
    is_full: bool,
}

impl<W: Output> BoundedOutput<W> {
    /// Makes an output that writes at most `most` bytes to `output`.
    pub fn new(output: W, most: u64) -> Self {
        BoundedOutput {
            output,
            left: most,
            is_full: false,
        }
    }

    /// Whether bytes were refused because they were more than what was left.
    pub fn is_full(&self) -> bool {
        self.is_full
    }
}

impl<W: Output> Output for BoundedOutput<W> {
    fn write(&mut self, from: &[u8]) -> Result<usize, DeviceFault> {
        if self.is_full || self.left < from.len() as u64 {
            self.is_full = true;
            return Err(DeviceFault);
        }
        let n = self.output.write(from)?;
        self.left -= n as u64;
        Ok(n)
    }

    fn failed(&self) -> bool {
        self.is_full || self.output.failed()
    }
}

impl<W: BufferedOutput> BufferedOutput for BoundedOutput<W> {
    fn flush(&mut self) -> Result<(), DeviceFault> {
        self.output.flush()
    }
}

/// An output that writes to `output`, with `name` and `: ` before each line. Its contract doesn't
/// state what bytes a write adds to `output`.
pub struct NamedLines<'n, 'w, W> {
    name: &'n str,
    output: &'w mut W,
    // Whether the next byte begins a line.
    begins: bool,
    failed: bool,
}

impl<'n, 'w, W: Output> NamedLines<'n, 'w, W> {
    /// Makes an output that writes lines to `output`, each with `name` and `: ` before it.
    pub fn new(name: &'n str, output: &'w mut W) -> Self {
        NamedLines {
            name,
            output,
            begins: true,
            failed: false,
        }
    }

    /// Writes `name` and `: ` to `output` if a line begins, and then bytes of `from`, at most up to
    /// the end of the line. Returns the number of bytes of `from` that it wrote. Precondition:
    /// `from` isn't empty.
    ///
    /// # Preconditions
    ///
    /// ```text
    /// requires { 0 < length from.now }
    /// ```
    fn write_within_line(&mut self, from: &[u8]) -> Result<usize, DeviceFault> {
        if self.output.failed() {
            return Err(DeviceFault);
        }
        if self.begins {
            write_all(self.output, self.name.as_bytes())?;
            write_all(self.output, b": ")?;
            self.begins = false;
        }
        let end = line_end(from);
        let n = self.output.write(&from[..end])?;
        self.begins = n == end && from[end - 1] == b'\n';
        Ok(n)
    }
}

/// The position after the first line feed in `bytes`; the end of `bytes` if they have none.
fn line_end(bytes: &[u8]) -> usize {
    match bytes.iter().position(|byte| *byte == b'\n') {
        Some(at) => at + 1,
        None => bytes.len(),
    }
}

impl<W: Output> Output for NamedLines<'_, '_, W> {
    fn write(&mut self, from: &[u8]) -> Result<usize, DeviceFault> {
        if from.is_empty() {
            return Ok(0);
        }
        match self.write_within_line(from) {
            Ok(n) => Ok(n),
            Err(DeviceFault) => {
                self.failed = true;
                Err(DeviceFault)
            }
        }
    }

    fn failed(&self) -> bool {
        self.failed
    }
}

impl<W: BufferedOutput> BufferedOutput for NamedLines<'_, '_, W> {
    fn flush(&mut self) -> Result<(), DeviceFault> {
        if self.output.flush().is_err() {
            self.failed = true;
            return Err(DeviceFault);
        }
        Ok(())
    }
}

/// An output that writes to `output`, with two spaces, `name`, `:` and the number of the line at
/// the end of each line: the lines of `sha256sum`, for messages of a file. Like `sha256sum`, writes
/// `\\`, `\n` and `\r` for a backslash, a line feed and a carriage return in `name`, and then a
/// backslash before each line. Its contract doesn't state what bytes a write adds to `output`.
pub struct NumberedLines<'n, 'w, W> {
    name: &'n str,
    output: &'w mut W,
    // The number of the line, counted from 1.
    number: u64,
    // Whether the next byte begins a line.
    begins: bool,
    failed: bool,
}

impl<'n, 'w, W: Output> NumberedLines<'n, 'w, W> {
    /// Makes an output that writes lines to `output`, each with `name` and its number after it.
    pub fn new(name: &'n str, output: &'w mut W) -> Self {
        NumberedLines {
            name,
            output,
            number: 1,
            begins: true,
            failed: false,
        }
    }

    /// Writes the name and the number of the line, and ends the line.
    fn write_line_end(&mut self) -> Result<(), DeviceFault> {
        if self.output.failed() {
            return Err(DeviceFault);
        }
        write_all(self.output, b"  ")?;
        write_name_and_number(self.output, self.name, self.number)?;
        write_all(self.output, b"\n")?;
        self.number = self.number.saturating_add(1);
        self.begins = true;
        Ok(())
    }

    /// Writes bytes of `from`, at most up to the end of the line, and what comes before or at the
    /// end of the line. Returns the number of bytes of `from` that it wrote. Precondition: `from`
    /// isn't empty.
    ///
    /// # Preconditions
    ///
    /// ```text
    /// requires { 0 < length from.now }
    /// ```
    fn write_within_line(&mut self, from: &[u8]) -> Result<usize, DeviceFault> {
        if from[0] == b'\n' {
            self.write_line_end()?;
            return Ok(1);
        }
        if self.output.failed() {
            return Err(DeviceFault);
        }
        if self.begins {
            write_escape_mark(self.output, self.name)?;
            self.begins = false;
        }
        self.output.write(&from[..text_end(from)])
    }
}

/// Whether `sha256sum` writes this byte of a file's name as a backslash and a letter or a
/// backslash.
fn is_escaped(byte: u8) -> bool {
    matches!(byte, b'\\' | b'\n' | b'\r')
}

/// Writes the backslash with which `sha256sum` begins a line if `name` has a byte that it escapes.
/// Precondition: `output` hasn't failed.
///
/// # Preconditions
///
/// ```text
/// requires { W.has_failed output.old ≡ false }
/// ```
pub fn write_escape_mark<W: Output>(output: &mut W, name: &str) -> Result<(), DeviceFault> {
    if name.as_bytes().iter().any(|byte| is_escaped(*byte)) {
        write_all(output, b"\\")?;
    }
    Ok(())
}

/// Writes `name` with the escapes of `sha256sum`, a `:`, and `number`. Precondition: `output`
/// hasn't failed.
///
/// # Preconditions
///
/// ```text
/// requires { W.has_failed output.old ≡ false }
/// ```
pub fn write_name_and_number<W: Output>(
    output: &mut W,
    name: &str,
    number: u64,
) -> Result<(), DeviceFault> {
    for byte in name.as_bytes() {
        if output.failed() {
            return Err(DeviceFault);
        }
        match *byte {
            b'\\' => write_all(output, b"\\\\")?,
            b'\n' => write_all(output, b"\\n")?,
            b'\r' => write_all(output, b"\\r")?,
            other => write_all(output, &[other])?,
        }
    }
    if output.failed() {
        return Err(DeviceFault);
    }
    write_all(output, b":")?;
    write_number(output, number)
}

/// The position of the first line feed in `bytes`; the end of `bytes` if they have none, or begin
/// with one.
fn text_end(bytes: &[u8]) -> usize {
    match bytes.iter().position(|byte| *byte == b'\n') {
        Some(at) if 0 < at => at,
        _ => bytes.len(),
    }
}

impl<W: Output> Output for NumberedLines<'_, '_, W> {
    fn write(&mut self, from: &[u8]) -> Result<usize, DeviceFault> {
        if from.is_empty() {
            return Ok(0);
        }
        match self.write_within_line(from) {
            Ok(n) => Ok(n),
            Err(DeviceFault) => {
                self.failed = true;
                Err(DeviceFault)
            }
        }
    }

    fn failed(&self) -> bool {
        self.failed
    }
}

impl<W: BufferedOutput> BufferedOutput for NumberedLines<'_, '_, W> {
    fn flush(&mut self) -> Result<(), DeviceFault> {
        if self.output.flush().is_err() {
            self.failed = true;
            return Err(DeviceFault);
        }
        Ok(())
    }
}
