//! Bytes as hex digits, for what the sources call the crate `hex`.

use super::alloc::{AllocError, Global};
use super::string::String;
use super::vec::Vec;

/// Why digits aren't bytes.
#[derive(Clone, Copy, Debug, PartialEq, Eq)]
pub enum FromHexError {
    InvalidHexCharacter { c: char, index: usize },
    OddLength,
    InvalidStringLength,
    OutOfMemory,
}

fn value(digit: u8, index: usize) -> Result<u8, FromHexError> {
    match char::from(digit).to_digit(16) {
        Some(value) => Ok(value as u8),
        None => Err(FromHexError::InvalidHexCharacter {
            c: char::from(digit),
            index,
        }),
    }
}

/// Decodes digits into bytes that are half as many.
pub fn decode_to_slice(digits: impl AsRef<[u8]>, to: &mut [u8]) -> Result<(), FromHexError> {
    let digits = digits.as_ref();
    if digits.len() % 2 != 0 {
        return Err(FromHexError::OddLength);
    }
    if digits.len() / 2 != to.len() {
        return Err(FromHexError::InvalidStringLength);
    }
    for (i, byte) in to.iter_mut().enumerate() {
        *byte = value(digits[2 * i], 2 * i)? * 16 + value(digits[2 * i + 1], 2 * i + 1)?;
    }
    Ok(())
}

/// Decodes digits.
pub fn decode(alloc: Global, digits: impl AsRef<[u8]>) -> Result<Vec<u8>, FromHexError> {
    let n = digits.as_ref().len() / 2;
    let mut bytes = Vec::from_elem(alloc, 0u8, n).map_err(|_| FromHexError::OutOfMemory)?;
    decode_to_slice(digits, bytes.as_mut_slice())?;
    Ok(bytes)
}

fn digit(value: u8) -> u8 {
    b"0123456789abcdef"[value as usize]
}

/// Writes the digits of `bytes`, which are twice as many.
pub fn encode_to_slice(bytes: impl AsRef<[u8]>, to: &mut [u8]) -> Result<(), FromHexError> {
    let bytes = bytes.as_ref();
    if to.len() != 2 * bytes.len() {
        return Err(FromHexError::InvalidStringLength);
    }
    for (byte, to) in bytes.iter().zip(to.chunks_exact_mut(2)) {
        to[0] = digit(byte >> 4);
        to[1] = digit(byte & 15);
    }
    Ok(())
}

/// The digits of `bytes`.
pub fn encode(alloc: Global, bytes: impl AsRef<[u8]>) -> Result<String, AllocError> {
    let mut text = String::new(alloc);
    for byte in bytes.as_ref() {
        text.push(char::from(digit(byte >> 4)))?;
        text.push(char::from(digit(byte & 15)))?;
    }
    Ok(text)
}
