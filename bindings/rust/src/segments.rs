//! The same calls, for a message whose segments you have. The length of each segment is a multiple of 8 bytes.
use crate::message::{reserve, segmented};
use crate::{Broken, Error, Extent, Fault, Limits, Reading, Size, Walk};
use alloc::vec::Vec;
use capnp_layout::proved::capnp_messages::messages::Form;

/// Something that holds the segments of a message, like `capnp::message::ReaderSegments`: for example a slice or a
/// vector of segments.
pub trait Segments {
    /// The segment with this number, counted from 0. The first `None` ends the segments.
    fn segment(&self, id: u32) -> Option<&[u8]>;
}

impl<T: AsRef<[u8]>> Segments for [T] {
    fn segment(&self, id: u32) -> Option<&[u8]> {
        self.get(id as usize).map(AsRef::as_ref)
    }
}

impl<T: AsRef<[u8]>, const COUNT: usize> Segments for [T; COUNT] {
    fn segment(&self, id: u32) -> Option<&[u8]> {
        self.as_slice().segment(id)
    }
}

impl<T: AsRef<[u8]>> Segments for Vec<T> {
    fn segment(&self, id: u32) -> Option<&[u8]> {
        self.as_slice().segment(id)
    }
}

impl<S: Segments + ?Sized> Segments for &S {
    fn segment(&self, id: u32) -> Option<&[u8]> {
        (**self).segment(id)
    }
}

/// All segments.
fn gathered<S: Segments + ?Sized>(segments: &S) -> Result<Vec<&[u8]>, Error> {
    let mut gathered = Vec::new();
    for segment in (0..=u32::MAX).map_while(|id| segments.segment(id)) {
        reserve(&mut gathered, 1)?;
        gathered.push(segment);
    }
    Ok(gathered)
}

/// Makes the message canonical, as a frame of one segment.
///
/// # Errors
///
/// Refused if a segment isn't whole words; otherwise like [`canonical_copy`](crate::canonical_copy) of the crate. So are
/// the other calls of this module.
pub fn canonical_copy<S: Segments + ?Sized>(
    segments: &S,
    limits: Limits,
) -> Result<Vec<u8>, Error> {
    let mut to = Vec::new();
    canonical_copy_into(segments, limits, &mut to)?;
    Ok(to)
}

/// Like the call without `_into`, but appends to a vector. Returns the number of bytes appended. A refusal leaves the
/// vector as it was.
pub fn canonical_copy_into<S: Segments + ?Sized>(
    segments: &S,
    limits: Limits,
    to: &mut Vec<u8>,
) -> Result<usize, Error> {
    segmented(&gathered(segments)?, limits)?.copy_into(Form::Framed, to)
}

/// Makes the message canonical, and returns its raw words, without the table of a frame: the bytes to hash or sign.
pub fn canonical_words<S: Segments + ?Sized>(
    segments: &S,
    limits: Limits,
) -> Result<Vec<u8>, Error> {
    let mut to = Vec::new();
    canonical_words_into(segments, limits, &mut to)?;
    Ok(to)
}

/// Like the call without `_into`, but appends to a vector. Returns the number of bytes appended. A refusal leaves the
/// vector as it was.
pub fn canonical_words_into<S: Segments + ?Sized>(
    segments: &S,
    limits: Limits,
    to: &mut Vec<u8>,
) -> Result<usize, Error> {
    segmented(&gathered(segments)?, limits)?.copy_into(Form::Flat, to)
}

/// The SHA-256 of the canonical words of the message, which are the bytes that [`canonical_words`] returns.
pub fn digest<S: Segments + ?Sized>(segments: &S, limits: Limits) -> Result<[u8; 32], Error> {
    segmented(&gathered(segments)?, limits)?.digest()
}

/// The SHA-256 of `prefix` and then the canonical words.
pub fn digest_with<S: Segments + ?Sized>(
    prefix: impl AsRef<[u8]>,
    segments: &S,
    limits: Limits,
) -> Result<[u8; 32], Error> {
    segmented(&gathered(segments)?, limits)?.digest_after(prefix.as_ref())
}

/// Whether two messages have the same value, like `equal` of the crate.
pub fn equal<S: Segments + ?Sized, T: Segments + ?Sized>(
    segments: &S,
    other: &T,
    limits: Limits,
) -> Result<bool, Error> {
    let (ours, others) = (gathered(segments)?, gathered(other)?);
    segmented(&ours, limits)?.equals(segmented(&others, limits)?)
}

/// Makes a part of the message canonical, and returns its raw words, like `canonical_words_at` of the crate.
pub fn canonical_words_at<S: Segments + ?Sized>(
    segments: &S,
    path: &[u32],
    limits: Limits,
) -> Result<Vec<u8>, Error> {
    let mut to = Vec::new();
    segmented(&gathered(segments)?, limits)?.part_into(path, &mut to)?;
    Ok(to)
}

/// The SHA-256 of the bytes that [`canonical_words_at`] returns.
pub fn digest_at<S: Segments + ?Sized>(
    segments: &S,
    path: &[u32],
    limits: Limits,
) -> Result<[u8; 32], Error> {
    segmented(&gathered(segments)?, limits)?.digest_part(path)
}

/// The SHA-256 of `prefix` and then the bytes that [`canonical_words_at`] returns.
pub fn digest_with_at<S: Segments + ?Sized>(
    prefix: impl AsRef<[u8]>,
    segments: &S,
    path: &[u32],
    limits: Limits,
) -> Result<[u8; 32], Error> {
    segmented(&gathered(segments)?, limits)?.digest_part_after(prefix.as_ref(), path)
}

/// The size of the part of the message that [`canonical_words_at`] copies.
pub fn size_at<S: Segments + ?Sized>(
    segments: &S,
    path: &[u32],
    limits: Limits,
) -> Result<Size, Error> {
    segmented(&gathered(segments)?, limits)?.size_part(path)
}

/// Says why and where the message isn't canonical; `None` if it is: one segment that holds the canonical words of a
/// value and nothing else.
pub fn check<S: Segments + ?Sized>(segments: &S, limits: Limits) -> Result<Option<Fault>, Error> {
    segmented(&gathered(segments)?, limits)?.check()
}

/// Whether the message is canonical. Also false if it can't be read, because a limit is exceeded.
#[must_use]
pub fn is_canonical<S: Segments + ?Sized>(segments: &S, limits: Limits) -> bool {
    gathered(segments).is_ok_and(|it| segmented(&it, limits).is_ok_and(|it| it.is_canonical()))
}

/// The size of the message.
pub fn size<S: Segments + ?Sized>(segments: &S, limits: Limits) -> Result<Size, Error> {
    segmented(&gathered(segments)?, limits)?.size()
}

/// Refuses the message unless it is sound, like `validate` of the crate.
pub fn validate<S: Segments + ?Sized>(segments: &S, limits: Limits) -> Result<Extent, Error> {
    segmented(&gathered(segments)?, limits)?.validate()
}

/// The pointer at which the message is broken, like `locate` of the crate.
pub fn locate<S: Segments + ?Sized>(
    segments: &S,
    reading: Reading,
    limits: Limits,
) -> Result<Option<Broken>, Error> {
    Ok(segmented(&gathered(segments)?, limits)?.locate(reading))
}

/// The structs, lists and capabilities of the message, at most `most` of them, like `walk` of the crate.
pub fn walk<S: Segments + ?Sized>(
    segments: &S,
    most: usize,
    limits: Limits,
) -> Result<Walk, Error> {
    segmented(&gathered(segments)?, limits)?.walk(most)
}
