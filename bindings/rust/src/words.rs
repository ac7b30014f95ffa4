//! The same calls, for a message passed as raw words: all of them are its one segment, as [`canonical_words`] returns
//! them and you have stored them. If you pass a frame here it is read as words, and is another value. The type
//! [`Words`](crate::Words) has the same calls as methods, and can't be taken for a frame.
//!
//! [`canonical_words`]: crate::canonical_words
use crate::message::segmented;
use crate::{Broken, Error, Extent, Fault, Limits, Reading, Size, Walk};
use alloc::vec::Vec;
use capnp_layout::proved::capnp_messages::messages::Form;

/// The canonical words of the value that the words hold.
///
/// # Errors
///
/// Refused if the bytes aren't whole words; otherwise like [`canonical_copy`](crate::canonical_copy) of the crate. So are
/// the other calls of this module.
pub fn canonical_words(words: impl AsRef<[u8]>, limits: Limits) -> Result<Vec<u8>, Error> {
    let mut to = Vec::new();
    canonical_words_into(words, limits, &mut to)?;
    Ok(to)
}

/// Like the call above, but appends to a vector. Returns the number of bytes appended. A refusal leaves the vector as
/// it was.
pub fn canonical_words_into(
    words: impl AsRef<[u8]>,
    limits: Limits,
    to: &mut Vec<u8>,
) -> Result<usize, Error> {
    segmented(&[words.as_ref()], limits)?.copy_into(Form::Flat, to)
}

/// The SHA-256 of the canonical words of the value that the words hold.
pub fn digest(words: impl AsRef<[u8]>, limits: Limits) -> Result<[u8; 32], Error> {
    segmented(&[words.as_ref()], limits)?.digest()
}

/// The SHA-256 of `prefix` and then the canonical words.
pub fn digest_with(
    prefix: impl AsRef<[u8]>,
    words: impl AsRef<[u8]>,
    limits: Limits,
) -> Result<[u8; 32], Error> {
    segmented(&[words.as_ref()], limits)?.digest_after(prefix.as_ref())
}

/// Whether the words hold the same value as others, like `equal` of the crate.
pub fn equal(
    words: impl AsRef<[u8]>,
    other: impl AsRef<[u8]>,
    limits: Limits,
) -> Result<bool, Error> {
    let (ours, others) = ([words.as_ref()], [other.as_ref()]);
    segmented(&ours, limits)?.equals(segmented(&others, limits)?)
}

/// Makes a part of the value canonical, and returns its raw words, like `canonical_words_at` of the crate.
pub fn canonical_words_at(
    words: impl AsRef<[u8]>,
    path: &[u32],
    limits: Limits,
) -> Result<Vec<u8>, Error> {
    let mut to = Vec::new();
    segmented(&[words.as_ref()], limits)?.part_into(path, &mut to)?;
    Ok(to)
}

/// The SHA-256 of the bytes that [`canonical_words_at`] returns.
pub fn digest_at(words: impl AsRef<[u8]>, path: &[u32], limits: Limits) -> Result<[u8; 32], Error> {
    segmented(&[words.as_ref()], limits)?.digest_part(path)
}

/// The SHA-256 of `prefix` and then the bytes that [`canonical_words_at`] returns.
pub fn digest_with_at(
    prefix: impl AsRef<[u8]>,
    words: impl AsRef<[u8]>,
    path: &[u32],
    limits: Limits,
) -> Result<[u8; 32], Error> {
    segmented(&[words.as_ref()], limits)?.digest_part_after(prefix.as_ref(), path)
}

/// The size of the part of the value that [`canonical_words_at`] copies.
pub fn size_at(words: impl AsRef<[u8]>, path: &[u32], limits: Limits) -> Result<Size, Error> {
    segmented(&[words.as_ref()], limits)?.size_part(path)
}

/// Says why and where the words aren't canonical; `None` if they are the canonical words of a value and nothing else.
pub fn check(words: impl AsRef<[u8]>, limits: Limits) -> Result<Option<Fault>, Error> {
    segmented(&[words.as_ref()], limits)?.check()
}

/// Whether the words are canonical. Also false if they can't be read, because a limit is exceeded or they are no
/// message.
#[must_use]
pub fn is_canonical(words: impl AsRef<[u8]>, limits: Limits) -> bool {
    segmented(&[words.as_ref()], limits).is_ok_and(|it| it.is_canonical())
}

/// The size of the message.
pub fn size(words: impl AsRef<[u8]>, limits: Limits) -> Result<Size, Error> {
    segmented(&[words.as_ref()], limits)?.size()
}

/// Refuses the message unless it is sound, like `validate` of the crate.
pub fn validate(words: impl AsRef<[u8]>, limits: Limits) -> Result<Extent, Error> {
    segmented(&[words.as_ref()], limits)?.validate()
}

/// The pointer at which the message is broken, like `locate` of the crate.
pub fn locate(
    words: impl AsRef<[u8]>,
    reading: Reading,
    limits: Limits,
) -> Result<Option<Broken>, Error> {
    Ok(segmented(&[words.as_ref()], limits)?.locate(reading))
}

/// The structs, lists and capabilities of the message, at most `most` of them, like `walk` of the crate.
pub fn walk(words: impl AsRef<[u8]>, most: usize, limits: Limits) -> Result<Walk, Error> {
    segmented(&[words.as_ref()], limits)?.walk(most)
}
