//! Writes the lines that the program prints.

use super::refusal::Refusal;
use crate::proved::capnp_layout::devices::{write_all, DeviceFault, Output};
use crate::proved::capnp_words::words::word_at;

/// Writes a word in 16 hex digits, the lowest byte first.
///
/// # Preconditions
///
/// ```text
/// requires { W.has_failed output.old ≡ false }
/// ```
fn write_word_digits<W: Output>(output: &mut W, word: u64) -> Result<(), DeviceFault> {
    let mut digits = [0u8; 16];
    let _ =
        crate::proved::support::hex::encode_to_slice(word.to_le_bytes().as_slice(), &mut digits);
    write_all(output, &digits)
}

/// Writes all whole words of a segment as hex digits.
///
/// # Preconditions
///
/// ```text
/// requires { W.has_failed output.old ≡ false }
/// ```
pub(in crate::proved::capnp_layout) fn write_hex_digits<W: Output>(
    output: &mut W,
    segment: &[u8],
) -> Result<(), DeviceFault> {
    for at in 0..segment.len() / 8 {
        write_word_digits(output, word_at(segment, at))?;
    }
    Ok(())
}

/// Writes all whole words of a segment as one line of hex digits.
///
/// # Preconditions
///
/// ```text
/// requires { W.has_failed output.old ≡ false }
/// ```
pub(in crate::proved::capnp_layout) fn write_hex_line<W: Output>(
    output: &mut W,
    segment: &[u8],
) -> Result<(), DeviceFault> {
    write_hex_digits(output, segment)?;
    write_all(output, b"\n")
}

/// Writes the line that says whether a message is canonical.
///
/// # Preconditions
///
/// ```text
/// requires { W.has_failed output.old ≡ false }
/// ```
pub(in crate::proved::capnp_layout) fn write_check<W: Output>(
    output: &mut W,
    is_canonical: bool,
) -> Result<(), DeviceFault> {
    if is_canonical {
        write_all(output, b"canonical\n")
    } else {
        write_all(output, b"not canonical\n")
    }
}

/// Writes the line that says whether a message is canonical as a whole.
///
/// # Preconditions
///
/// ```text
/// requires { W.has_failed output.old ≡ false }
/// ```
pub(in crate::proved::capnp_layout) fn write_message_check<W: Output>(
    output: &mut W,
    is_canonical: bool,
) -> Result<(), DeviceFault> {
    if is_canonical {
        write_all(output, b"canonical message\n")
    } else {
        write_all(output, b"not a canonical message\n")
    }
}

/// Writes the line that names a refusal.
///
/// # Preconditions
///
/// ```text
/// requires { W.has_failed output.old ≡ false }
/// ```
pub(in crate::proved::capnp_layout) fn write_refusal<W: Output>(
    output: &mut W,
    refusal: Refusal,
) -> Result<(), DeviceFault> {
    write_all(output, b"refused ")?;
    write_all(output, refusal.name().as_bytes())?;
    write_all(output, b"\n")
}
