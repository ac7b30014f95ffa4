//! Writes the answers about one message.

use crate::proved::capnp_framing::devices::{write_all, DeviceFault, Output};
use crate::proved::capnp_messages::messages::{write_words, Form};
use crate::proved::capnp_messages::text::write_number;
use crate::proved::capnp_pointers::pointers::CanonicalFault;

/// The largest number of bytes that are written as hex digits at a time.
const PIECE: usize = 512;

/// The number of hex digits of `PIECE` bytes.
const DIGITS: usize = 2 * PIECE;

/// Writes the line for a canonical message.
///
/// # Preconditions
///
/// ```text
/// requires { W.has_failed output.old ≡ false }
/// ```
pub(super) fn write_canonical_line<W: Output>(output: &mut W) -> Result<(), DeviceFault> {
    write_all(output, b"canonical\n")
}

/// Writes the beginning of the line for a message that isn't canonical.
///
/// # Preconditions
///
/// ```text
/// requires { W.has_failed output.old ≡ false }
/// ```
fn write_not_canonical<W: Output>(output: &mut W) -> Result<(), DeviceFault> {
    write_all(output, b"not canonical: ")
}

/// Writes the segment of the fault.
///
/// # Preconditions
///
/// ```text
/// requires { W.has_failed output.old ≡ false }
/// ```
fn write_segment_number<W: Output>(output: &mut W, segment: u64) -> Result<(), DeviceFault> {
    write_all(output, b" at segment ")?;
    write_number(output, segment)
}

/// Writes the word of the fault, and ends the line.
///
/// # Preconditions
///
/// ```text
/// requires { W.has_failed output.old ≡ false }
/// ```
fn write_word_number<W: Output>(output: &mut W, word: u64) -> Result<(), DeviceFault> {
    write_all(output, b", word ")?;
    write_number(output, word)?;
    write_all(output, b"\n")
}

/// Writes the line for a message that isn't canonical: why, and where.
///
/// # Preconditions
///
/// ```text
/// requires { W.has_failed output.old ≡ false }
/// ```
pub(super) fn write_fault<W: Output>(
    output: &mut W,
    fault: CanonicalFault,
) -> Result<(), DeviceFault> {
    write_not_canonical(output)?;
    write_all(output, fault.reason.text().as_bytes())?;
    write_segment_number(output, fault.segment)?;
    write_word_number(output, u64::from(fault.word))
}

/// Writes at most 512 bytes as lower case hex digits, two a byte.
///
/// # Preconditions
///
/// ```text
/// requires works { W.has_failed output.old ≡ false }
/// requires few { length bytes.now ≤ 512 }
/// ```
fn write_hex_digits<W: Output>(output: &mut W, bytes: &[u8]) -> Result<(), DeviceFault> {
    let mut buffer = [0u8; DIGITS];
    let digits = &mut buffer[..2 * bytes.len()];
    let _ = crate::proved::support::hex::encode_to_slice(bytes, &mut *digits);
    write_all(output, &*digits)
}

/// Writes bytes as a line of lower case hex digits, two a byte.
///
/// # Preconditions
///
/// ```text
/// requires { W.has_failed output.old ≡ false }
/// ```
pub(super) fn write_hex_line<W: Output>(output: &mut W, bytes: &[u8]) -> Result<(), DeviceFault> {
    let mut rest = bytes;
    while !rest.is_empty() {
        let n = rest.len().min(PIECE);
        write_hex_digits(output, &rest[..n])?;
        rest = &rest[n..];
    }
    write_all(output, b"\n")
}

/// Writes the canonical words in `bytes`. If `hex` is `true`, writes them as a line of lower case
/// hex digits; otherwise in a frame or as raw words, depending on `form`.
///
/// # Preconditions
///
/// ```text
/// requires works { W.has_failed output.old ≡ false }
/// requires short { length bytes.now < 2 ^ 35 }
/// requires whole { bytes.now ≡ bytes_of_words (words_of bytes.now) }
/// ```
pub(super) fn write_canonical_words<W: Output>(
    output: &mut W,
    bytes: &[u8],
    hex: bool,
    form: Form,
) -> Result<(), DeviceFault> {
    if hex {
        write_hex_line(output, bytes)
    } else {
        write_words(output, bytes, form)
    }
}
