//! Packs words and unpacks packed bytes in memory.

use super::packing_error::PackingError;
use super::place::Place;
use super::read_ahead::ReadAhead;
use super::unpacking_input::UnpackingInput;
use super::words::pack_words;
use crate::proved::capnp_framing::devices::{Input, MemoryInput};
use crate::proved::support::alloc::Global;
use crate::proved::support::vec::Vec;

/// The most packed bytes that are made at a time, and the most bytes that are unpacked at a time.
const STEP: usize = 8192;

/// Packs `words` (encoding specification, "Packing"). Refusals: `CutWord` exactly if the length of
/// `words` isn't a multiple of 8; `AllocationFailed` if there is no memory.
pub fn pack(alloc: Global, words: &[u8]) -> Result<Vec<u8>, PackingError> {
    if !words.len().is_multiple_of(8) {
        return Err(PackingError::CutWord);
    }
    let mut packed = Vec::new(alloc);
    let mut taken = 0;
    while taken < words.len() {
        taken += pack_more(&mut packed, &words[taken..])?;
    }
    Ok(packed)
}

/// Packs some words from the front of `words`, at least one, and appends the packed bytes to
/// `packed`. Returns how many bytes of `words` were packed.
///
/// # Preconditions
///
/// ```text
/// requires { 8 ≤ length words.now }
/// ```
fn pack_more(packed: &mut Vec<u8>, words: &[u8]) -> Result<usize, PackingError> {
    let mut part = [0; STEP];
    let done = pack_words(&mut part, words);
    if packed.extend_from_slice(&part[..done.given]).is_err() {
        return Err(PackingError::AllocationFailed);
    }
    Ok(done.taken)
}

/// Unpacks packed bytes to at most `max_bytes` bytes ("Packing").
///
/// Refusals: `TooLong` if there are more than `max_bytes` unpacked bytes, even if the packed bytes
/// are cut short; otherwise `Truncated` if the packed bytes end inside a word or before a count;
/// `AllocationFailed` if there is no memory.
pub fn unpack(alloc: Global, packed: &[u8], max_bytes: usize) -> Result<Vec<u8>, PackingError> {
    let mut input = UnpackingInput::new(MemoryInput::new(packed));
    let mut bytes = Vec::new(alloc);
    while bytes.len() <= max_bytes {
        let most = (STEP - 1).min(max_bytes - bytes.len()) + 1;
        let n = unpack_more(&mut input, &mut bytes, most)?;
        if n == 0 {
            if input.is_whole() {
                return Ok(bytes);
            }
            return Err(PackingError::Truncated);
        }
    }
    Err(PackingError::TooLong)
}

/// Reads at most `most` unpacked bytes from `input`, appends them to `bytes`, and returns their
/// number: 0 only if the input has ended.
///
/// # Preconditions
///
/// ```text
/// requires some { 0 < most }
/// requires few { most ≤ 8192 }
/// ```
fn unpack_more<R: Input>(
    input: &mut UnpackingInput<R>,
    bytes: &mut Vec<u8>,
    most: usize,
) -> Result<usize, PackingError> {
    let mut part = [0; STEP];
    match input.unpack(&mut part[..most]) {
        Ok(n) if bytes.extend_from_slice(&part[..n]).is_ok() => Ok(n),
        _ => Err(PackingError::AllocationFailed),
    }
}
