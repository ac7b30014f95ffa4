//! Parses the parts of a line: numbers, bytes, segments, sizes.

use capnp_proved::capnp_words::error::ErrorKind;
use capnp_proved::capnp_words::wire_pointer::ElementSize;
use std::str::FromStr;
use test_support::decode_hex;

/// The sizes of elements, in the order of their numbers.
pub const SIZES: [ElementSize; 8] = [
    ElementSize::Void,
    ElementSize::Bit,
    ElementSize::Byte,
    ElementSize::TwoBytes,
    ElementSize::FourBytes,
    ElementSize::EightBytes,
    ElementSize::Pointer,
    ElementSize::InlineComposite,
];

/// Why a line, or one of its calls, has no result.
#[derive(Clone, Copy)]
pub enum Fault {
    /// The line isn't of its command's form.
    Malformed,
    /// A number is out of the range of its type or its call, or the call can't be made on what it
    /// names.
    Unfit,
    /// The call was made, and refused.
    Refused(ErrorKind),
}

impl From<ErrorKind> for Fault {
    fn from(kind: ErrorKind) -> Self {
        Fault::Refused(kind)
    }
}

/// Splits a line into its words, which are separated by one space.
pub fn words(line: &str) -> Vec<&str> {
    line.split(' ').collect()
}

/// Whether a text is decimal digits with an optional `-`.
pub fn is_number(text: &str) -> bool {
    let digits = text.strip_prefix('-').unwrap_or(text);
    !digits.is_empty() && digits.bytes().all(|digit| digit.is_ascii_digit())
}

/// Parses a number in decimal digits; `Unfit` if it is out of its type's range.
pub fn number<T: FromStr>(text: &str) -> Result<T, Fault> {
    if !is_number(text) {
        return Err(Fault::Malformed);
    }
    text.parse().map_err(|_| Fault::Unfit)
}

/// Parses 1 as `true` and 0 as `false`.
pub fn flag(text: &str) -> Result<bool, Fault> {
    match number(text)? {
        0u8 => Ok(false),
        1 => Ok(true),
        _ => Err(Fault::Unfit),
    }
}

/// Parses the mask of a number, in decimal digits, if the call has one.
pub fn number_mask<M: FromStr>(digits: Option<&str>) -> Result<Option<M>, Fault> {
    digits.map(number).transpose()
}

/// Parses the mask of a bit, 1 or 0, if the call has one.
pub fn bool_mask(digits: Option<&str>) -> Result<Option<bool>, Fault> {
    digits.map(flag).transpose()
}

/// Parses a limit: a number, or `none` for no limit.
pub fn limit<T: FromStr>(text: &str) -> Result<Option<T>, Fault> {
    if text == "none" {
        return Ok(None);
    }
    number(text).map(Some)
}

/// Parses an element size, as a number from 0 to 7.
pub fn element_size(text: &str) -> Result<ElementSize, Fault> {
    let number: u8 = number(text)?;
    SIZES.get(usize::from(number)).copied().ok_or(Fault::Unfit)
}

/// Whether a text is bytes in lower-case hex digits, or `-`.
pub fn is_hex(text: &str) -> bool {
    let is_digit = |digit| matches!(digit, b'0'..=b'9' | b'a'..=b'f');
    text == "-" || !text.is_empty() && text.len().is_multiple_of(2) && text.bytes().all(is_digit)
}

/// Parses bytes in lower-case hex digits; `-` for no bytes.
pub fn bytes(text: &str) -> Result<Vec<u8>, Fault> {
    if !is_hex(text) {
        return Err(Fault::Malformed);
    }
    let digits = if text == "-" { "" } else { text };
    decode_hex(digits).ok_or(Fault::Malformed)
}

/// Parses segments in hex digits, separated by `separator`. A single `-` means no segments; the
/// text `empty` in place of the digits means a segment without bytes.
pub fn segments(text: &str, separator: char, empty: &str) -> Result<Vec<Vec<u8>>, Fault> {
    if text == "-" {
        return Ok(Vec::new());
    }
    text.split(separator)
        .map(|part| bytes(if part == empty { "-" } else { part }))
        .collect()
}

/// Lends the bytes of each segment.
pub fn slices(segments: &[Vec<u8>]) -> Vec<&[u8]> {
    segments.iter().map(Vec::as_slice).collect()
}
