//! Packing and unpacking bytes.
use crate::message::reserve;
use crate::Error;
use alloc::vec::Vec;
use capnp_layout::proved::capnp_canonical::capnp_canonical_pack;
use capnp_layout::proved::capnp_packing::packing::{unpack_to_slice, unpacked_size, Place};

/// Unpacks what `capnp::serialize_packed::write_message` writes: the frames of one or more messages, which the other
/// calls take, and [`frames`](crate::frames) one by one. Two packed bytes stand for up to 2,048.
///
/// ```
/// use capnp_canonical::{unpack, Error};
///
/// let words = unpack(&[0x51, 8, 3, 2, 0x31, 0x19, 0xaa, 1], 2)?;
/// assert_eq!(words, [8, 0, 0, 0, 3, 0, 2, 0, 0x19, 0, 0, 0, 0xaa, 1, 0, 0]);
/// assert_eq!(unpack(&[0, 0xff], 255), Err(Error::MESSAGE_TOO_LONG));
/// # Ok::<(), Error>(())
/// ```
///
/// # Errors
///
/// [`Error::TRUNCATED`] if the packed bytes are cut short; [`Error::MESSAGE_TOO_LONG`] if there are more than `words` words,
/// before memory is taken for them; [`Error::ALLOCATION_FAILED`] if it runs out.
pub fn unpack(packed: impl AsRef<[u8]>, words: u64) -> Result<Vec<u8>, Error> {
    let mut to = Vec::new();
    unpack_into(packed, words, &mut to)?;
    Ok(to)
}

/// Like [`unpack`], but appends to a vector. Returns the number of bytes appended.
///
/// # Errors
///
/// Those of [`unpack`]. A refusal leaves the vector as it was.
pub fn unpack_into(packed: impl AsRef<[u8]>, words: u64, to: &mut Vec<u8>) -> Result<usize, Error> {
    let packed = packed.as_ref();
    let size = match unpacked_size(packed) {
        Some((size, Place::Tag)) if size as u64 / 8 <= words => size,
        Some((_, Place::Tag)) | None => return Err(Error::MESSAGE_TOO_LONG),
        Some(_) => return Err(Error::TRUNCATED),
    };
    reserve(to, size)?;
    let front = to.len();
    to.resize(front + size, 0);
    unpack_to_slice(packed, &mut to[front..]);
    Ok(size)
}

/// Packs whole words, such as the frames of one or more messages: what `capnp::serialize_packed::write_message` writes.
///
/// ```
/// use capnp_canonical::{pack, unpack};
///
/// let words = [8, 0, 0, 0, 3, 0, 2, 0, 0x19, 0, 0, 0, 0xaa, 1, 0, 0];
/// let packed = pack(words)?;
/// assert_eq!(packed, [0x51, 8, 3, 2, 0x31, 0x19, 0xaa, 1]);
/// assert_eq!(unpack(packed, 2)?, words);
/// # Ok::<(), capnp_canonical::Error>(())
/// ```
///
/// # Errors
///
/// [`Error::SEGMENT_IS_NOT_WHOLE_WORDS`] if the number of bytes isn't a multiple of 8; [`Error::ALLOCATION_FAILED`] if memory
/// runs out.
pub fn pack(frames: impl AsRef<[u8]>) -> Result<Vec<u8>, Error> {
    let mut to = Vec::new();
    pack_into(frames, &mut to)?;
    Ok(to)
}

/// Like [`pack`], but appends to a vector. Returns the number of bytes appended.
///
/// # Errors
///
/// Those of [`pack`]. A refusal leaves the vector as it was.
pub fn pack_into(frames: impl AsRef<[u8]>, to: &mut Vec<u8>) -> Result<usize, Error> {
    let frames = frames.as_ref();
    if !frames.len().is_multiple_of(8) {
        return Err(Error::SEGMENT_IS_NOT_WHOLE_WORDS);
    }
    // a word is packed to ten bytes at most
    let (front, room) = (to.len(), frames.len() + frames.len() / 4);
    reserve(to, room)?;
    to.resize(front + room, 0);
    let mut written = 0;
    capnp_canonical_pack(frames, &mut to[front..], &mut written);
    to.truncate(front + written);
    Ok(written)
}
