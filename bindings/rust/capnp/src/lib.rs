//! Canonical form of the messages of the crate `capnp`: the calls of `capnp_canonical` over
//! `capnp::message::ReaderSegments`, whose segments are read in place.
//!
//! ```
//! use capnp::message::ReaderOptions;
//! use capnp_canonical_capnp::{canonical_words, is_canonical, limits};
//!
//! // a struct of three words, the last of which is zero
//! let frame = [4 << 32, 3 << 32, 7, 8, 0].map(u64::to_le_bytes).concat();
//! let options = ReaderOptions::new();
//! let segments = capnp::serialize::read_message(&mut &frame[..], options)?.into_segments();
//!
//! let words = canonical_words(&segments, limits(&options)).unwrap();
//! assert_eq!(words, [2 << 32, 7, 8].map(u64::to_le_bytes).concat());
//! assert!(!is_canonical(&segments, limits(&options)));
//! # Ok::<(), capnp::Error>(())
//! ```
//!
//! A message that you build is read in place too, as `message::Builder` has its segments. So is one that you read, if
//! you keep its segments and give them to its reader by reference: `message::Reader::new(&segments, options)`.
//!
//! If you have only a `message::Reader` by reference, or the reader of a struct, a list or a text in a message, `capnp`
//! has no public way to its words. [`canonical_words_of_reader`] and [`canonical_words_of`] copy such a value first.
//!
//! **Versions.** The crate takes `capnp` 0.14 to 0.27, and must have the same one as your program. [`capnp`] is the one
//! that it has. If cargo chose another than yours, so that your types don't fit, run
//! `cargo update -p capnp@OTHER --precise YOURS`.
//!
//! The crate is `no_std` with `alloc`. The calls that copy need its feature `std`, which is on by default and turns on
//! the default features of `capnp`.
#![no_std]
#![cfg_attr(docsrs, feature(doc_cfg))]
#![forbid(unsafe_code)]
#![warn(missing_docs)]

extern crate alloc;

#[cfg(feature = "std")]
mod copied;

use alloc::vec::Vec;
pub use capnp;
use capnp::message::{ReaderOptions, ReaderSegments};
use capnp_canonical::segments::{self, Segments};
use capnp_canonical::{Broken, Error, Extent, Fault, Limits, Reading, Size, Walk};
#[cfg(feature = "std")]
pub use copied::{canonical_words_of, canonical_words_of_reader, ValueError};
use core::fmt;

/// A message of the crate `capnp`, in the form that `capnp_canonical::segments` takes.
pub struct Of<'a, S: ReaderSegments + ?Sized>(pub &'a S);

impl<S: ReaderSegments + ?Sized> Clone for Of<'_, S> {
    fn clone(&self) -> Self {
        *self
    }
}

impl<S: ReaderSegments + ?Sized> Copy for Of<'_, S> {}

/// The number of segments.
impl<S: ReaderSegments + ?Sized> fmt::Debug for Of<'_, S> {
    fn fmt(&self, f: &mut fmt::Formatter<'_>) -> fmt::Result {
        f.debug_tuple("Of").field(&self.0.len()).finish()
    }
}

impl<S: ReaderSegments + ?Sized> Segments for Of<'_, S> {
    fn segment(&self, id: u32) -> Option<&[u8]> {
        self.0.get_segment(id)
    }
}

/// The limits of a reader's options. No limit becomes the largest number.
pub fn limits(options: &ReaderOptions) -> Limits {
    let words = options
        .traversal_limit_in_words
        .map_or(u64::MAX, |it| it as u64);
    Limits::default()
        .with_nesting(options.nesting_limit)
        .with_words(words)
}

/// Makes the message canonical, as a frame of one segment.
///
/// # Errors
///
/// Those of [`canonical_copy`](capnp_canonical::canonical_copy) of `capnp_canonical`. So are those of the other calls.
pub fn canonical_copy<S: ReaderSegments + ?Sized>(
    message: &S,
    limits: Limits,
) -> Result<Vec<u8>, Error> {
    segments::canonical_copy(&Of(message), limits)
}

/// Like the call above, but appends to a vector. Returns the number of bytes appended. A refusal leaves the vector as
/// it was.
pub fn canonical_copy_into<S: ReaderSegments + ?Sized>(
    message: &S,
    limits: Limits,
    to: &mut Vec<u8>,
) -> Result<usize, Error> {
    segments::canonical_copy_into(&Of(message), limits, to)
}

/// Makes the message canonical, and returns its raw words, without the table of a frame: the bytes to hash or sign.
pub fn canonical_words<S: ReaderSegments + ?Sized>(
    message: &S,
    limits: Limits,
) -> Result<Vec<u8>, Error> {
    segments::canonical_words(&Of(message), limits)
}

/// Like the call above, but appends to a vector. Returns the number of bytes appended. A refusal leaves the vector as
/// it was.
pub fn canonical_words_into<S: ReaderSegments + ?Sized>(
    message: &S,
    limits: Limits,
    to: &mut Vec<u8>,
) -> Result<usize, Error> {
    segments::canonical_words_into(&Of(message), limits, to)
}

/// The SHA-256 of the canonical words of the message, which are the bytes that [`canonical_words`] returns.
pub fn digest<S: ReaderSegments + ?Sized>(message: &S, limits: Limits) -> Result<[u8; 32], Error> {
    segments::digest(&Of(message), limits)
}

/// The SHA-256 of `prefix` and then the canonical words, like `digest_with` of `capnp_canonical`.
pub fn digest_with<S: ReaderSegments + ?Sized>(
    prefix: impl AsRef<[u8]>,
    message: &S,
    limits: Limits,
) -> Result<[u8; 32], Error> {
    segments::digest_with(prefix, &Of(message), limits)
}

/// Whether two messages have the same value, like `equal` of `capnp_canonical`.
pub fn equal<S: ReaderSegments + ?Sized, T: ReaderSegments + ?Sized>(
    message: &S,
    other: &T,
    limits: Limits,
) -> Result<bool, Error> {
    segments::equal(&Of(message), &Of(other), limits)
}

/// Makes a part of the message canonical, and returns its raw words: the value at the end of a path of indexes, from the
/// root pointer on.
pub fn canonical_words_at<S: ReaderSegments + ?Sized>(
    message: &S,
    path: &[u32],
    limits: Limits,
) -> Result<Vec<u8>, Error> {
    segments::canonical_words_at(&Of(message), path, limits)
}

/// The SHA-256 of the bytes that [`canonical_words_at`] returns.
pub fn digest_at<S: ReaderSegments + ?Sized>(
    message: &S,
    path: &[u32],
    limits: Limits,
) -> Result<[u8; 32], Error> {
    segments::digest_at(&Of(message), path, limits)
}

/// The SHA-256 of `prefix` and then the bytes that [`canonical_words_at`] returns.
pub fn digest_with_at<S: ReaderSegments + ?Sized>(
    prefix: impl AsRef<[u8]>,
    message: &S,
    path: &[u32],
    limits: Limits,
) -> Result<[u8; 32], Error> {
    segments::digest_with_at(prefix, &Of(message), path, limits)
}

/// The size of the part of the message that [`canonical_words_at`] copies.
pub fn size_at<S: ReaderSegments + ?Sized>(
    message: &S,
    path: &[u32],
    limits: Limits,
) -> Result<Size, Error> {
    segments::size_at(&Of(message), path, limits)
}

/// Says why and where the message isn't canonical; `None` if it is: one segment that holds the canonical words of a
/// value and nothing else.
pub fn check<S: ReaderSegments + ?Sized>(
    message: &S,
    limits: Limits,
) -> Result<Option<Fault>, Error> {
    segments::check(&Of(message), limits)
}

/// Whether the message is canonical. Also false if it can't be read, because a limit is exceeded.
#[must_use]
pub fn is_canonical<S: ReaderSegments + ?Sized>(message: &S, limits: Limits) -> bool {
    segments::is_canonical(&Of(message), limits)
}

/// The size of the message.
pub fn size<S: ReaderSegments + ?Sized>(message: &S, limits: Limits) -> Result<Size, Error> {
    segments::size(&Of(message), limits)
}

/// Refuses the message unless it is sound: unless its root means a value within both limits. The value may have
/// capabilities.
pub fn validate<S: ReaderSegments + ?Sized>(message: &S, limits: Limits) -> Result<Extent, Error> {
    segments::validate(&Of(message), limits)
}

/// The pointer at which the message is broken, for the calls that read it in this way.
pub fn locate<S: ReaderSegments + ?Sized>(
    message: &S,
    reading: Reading,
    limits: Limits,
) -> Result<Option<Broken>, Error> {
    segments::locate(&Of(message), reading, limits)
}

/// The structs, lists and capabilities of the message, at most `most` of them.
pub fn walk<S: ReaderSegments + ?Sized>(
    message: &S,
    most: usize,
    limits: Limits,
) -> Result<Walk, Error> {
    segments::walk(&Of(message), most, limits)
}
