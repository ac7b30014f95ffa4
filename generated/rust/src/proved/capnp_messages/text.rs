//! Parses limits from arguments, and writes numbers, sizes and extents as text.

use crate::proved::capnp_framing::devices::{write_all, DeviceFault, Output};
use crate::proved::capnp_pointers::pointers::{Extent, MessageSize};

/// Parses a nesting limit: an `i32` in decimal digits with an optional `-`. Returns `None` for any
/// other text, also for one with a `+`.
pub fn parse_nesting_limit(text: &str) -> Option<i32> {
    if text.starts_with('+') {
        None
    } else {
        text.parse().ok()
    }
}

/// Parses a traversal limit: a `u64` in decimal digits, or `none` for no limit. Returns `None` for
/// any other text, also for one with a `+`.
pub fn parse_traversal_limit(text: &str) -> Option<Option<usize>> {
    if text == "none" {
        return Some(None);
    }
    if text.starts_with('+') {
        return None;
    }
    match text.parse() {
        Ok(n) => Some(Some(n)),
        Err(_) => None,
    }
}

/// Writes a number in decimal digits. Precondition: `output` hasn't failed.
///
/// # Preconditions
///
/// ```text
/// requires { W.has_failed output.old ≡ false }
/// ```
pub fn write_number<W: Output>(output: &mut W, n: u64) -> Result<(), DeviceFault> {
    if n >= 10 {
        write_number(output, n / 10)?;
    }
    write_all(output, &[b'0' + (n % 10) as u8])
}

/// Writes a line with the numbers of words and capabilities of `size`: `words N caps M`.
/// Precondition: `output` hasn't failed.
///
/// # Preconditions
///
/// ```text
/// requires { W.has_failed output.old ≡ false }
/// ```
pub fn write_size<W: Output>(output: &mut W, size: MessageSize) -> Result<(), DeviceFault> {
    write_all(output, b"words ")?;
    write_number(output, size.word_count)?;
    write_all(output, b" caps ")?;
    write_number(output, u64::from(size.cap_count))?;
    write_all(output, b"\n")
}

/// Writes a line that says that a message is sound, with the extent of its value: `sound: depth N,
/// words N, capabilities N`. Precondition: `output` hasn't failed.
///
/// # Preconditions
///
/// ```text
/// requires { W.has_failed output.old ≡ false }
/// ```
pub fn write_extent<W: Output>(output: &mut W, extent: Extent) -> Result<(), DeviceFault> {
    write_all(output, b"sound: depth ")?;
    write_number(output, u64::from(extent.depth))?;
    write_all(output, b", words ")?;
    write_number(output, extent.words)?;
    write_all(output, b", capabilities ")?;
    write_number(output, extent.capabilities)?;
    write_all(output, b"\n")
}
