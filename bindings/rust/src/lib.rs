//! Canonical form of Cap'n Proto messages: one string of bytes for each value, to hash, sign, compare or deduplicate
//! messages.
//!
//! You pass a message as a frame, as `capnp::serialize::write_message` writes it, or as its segments ([`segments`]).
//! Bytes may lie at any address, and bytes after the frame are ignored. Unpack packed bytes first, with [`unpack`]. No
//! call keeps anything, so several threads may call at once.
//!
//! An [`Error`] has a name, a number that all languages share, and the place of the pointer that is refused. For that place
//! the message is read once more, so a refusal costs up to twice as much as an answer. [`Limits`] say how much may be read.
//!
//! The functions that read messages are proved. They are written in Rattle, which is Rust with contracts, and printed as
//! Rust in the crate `capnp_layout`; no proof is about the printed text. What this crate adds is written by hand, and
//! tested. There is no unsafe code in either, and no C. Targets need 64-bit addresses.
//!
//! A level of nesting takes up to 620 bytes of stack, so the [most levels](Limits::MAX_NESTING) fit in a thread of 2 MiB.
//! In a build without optimization it takes up to 19.3 KB; there a call with a nesting limit above 64 runs in a
//! thread of its own, with a stack that is large enough, unless the crate is built without `std`.
//!
//! Raw words aren't a frame. Read back what [`canonical_words`] returns with the type [`Words`] or the module [`words`]. A
//! call that takes a frame may **succeed** on raw words, and then reads **another** value, because the pointer to a root
//! without pointers is also the table of a frame. It doesn't take [`Words`].
//!
//! The crate is `no_std` with `alloc`. The feature `std`, on by default, has `FrameReader` and `PackedFrameReader` for files and
//! sockets, and lets you turn an `Error` into an `std::io::Error`.
//!
//! ```
//! use capnp_canonical::{canonical_words, check, is_canonical, Limits};
//!
//! // A struct of three words, the last of which is zero: canonical form cuts it.
//! let frame = [
//!     [0, 0, 0, 0, 4, 0, 0, 0], // one segment of four words
//!     [0, 0, 0, 0, 3, 0, 0, 0],
//!     [0x11; 8],
//!     [0, 0, 0, 0, 0, 0, 0, 0x80],
//!     [0; 8],
//! ]
//! .concat();
//! let words = canonical_words(&frame, Limits::default())?;
//! assert_eq!(words, [[0, 0, 0, 0, 2, 0, 0, 0], [0x11; 8], [0, 0, 0, 0, 0, 0, 0, 0x80]].concat());
//!
//! assert!(!is_canonical(&frame, Limits::default()));
//! let fault = check(&frame, Limits::default())?.expect("a fault");
//! assert_eq!(fault.to_string(), "a data section whose last word is zero at segment 0, word 3");
//! # Ok::<(), capnp_canonical::Error>(())
//! ```
#![no_std]
#![cfg_attr(docsrs, feature(doc_cfg))]
#![forbid(unsafe_code)]
#![warn(missing_docs)]

extern crate alloc;
#[cfg(feature = "std")]
extern crate std;

mod answers;
mod error;
#[cfg(feature = "std")]
mod incoming;
mod limits;
mod looks;
mod message;
mod packed;
#[cfg(feature = "std")]
mod packed_reader;
mod raw_words;
#[cfg(feature = "std")]
mod reader;
pub mod segments;
mod stack;
mod stream;
mod texts;
mod walk;
pub mod words;

use alloc::vec::Vec;
pub use answers::{Extent, Fault, Reading, Reason, Size};
use capnp_layout::proved::capnp_canonical::capnp_canonical_version;
use capnp_layout::proved::capnp_framing::framing::size_from_prefix;
use capnp_layout::proved::capnp_messages::messages::Form;
pub use error::{Broken, Error, ErrorKind, Pointer};
pub use limits::Limits;
pub use looks::looks_like;
use message::{first_frame, framed, Message};
pub use packed::{pack, pack_into, unpack, unpack_into};
#[cfg(feature = "std")]
pub use packed_reader::PackedFrameReader;
pub use raw_words::Words;
#[cfg(feature = "std")]
pub use reader::FrameReader;
pub use stream::{frames, Frame, Frames, StreamError};
pub use walk::{Kind, Object, Walk};

/// Makes the message of the frame at the front of a slice canonical, as a frame of one segment.
///
/// # Errors
///
/// Refused if there is no whole frame; if its value can't be read within the limits, or has a capability; if the canonical
/// message is larger than the format allows, or there is no memory for it.
pub fn canonical_copy(frame: impl AsRef<[u8]>, limits: Limits) -> Result<Vec<u8>, Error> {
    let mut to = Vec::new();
    canonical_copy_into(frame, limits, &mut to)?;
    Ok(to)
}

/// Like [`canonical_copy`], but appends to a vector, so you can reuse its memory. Returns the number of bytes appended.
///
/// # Errors
///
/// Those of [`canonical_copy`]. A refusal leaves the vector as it was.
pub fn canonical_copy_into(
    frame: impl AsRef<[u8]>,
    limits: Limits,
    to: &mut Vec<u8>,
) -> Result<usize, Error> {
    framed(frame.as_ref(), limits)?.copy_into(Form::Framed, to)
}

/// Makes the message canonical, and returns its raw words, without the table of a frame: the bytes to hash or sign.
/// Read stored words back with the module [`words`].
///
/// # Errors
///
/// Those of [`canonical_copy`].
pub fn canonical_words(frame: impl AsRef<[u8]>, limits: Limits) -> Result<Vec<u8>, Error> {
    let mut to = Vec::new();
    canonical_words_into(frame, limits, &mut to)?;
    Ok(to)
}

/// Like [`canonical_words`], but appends to a vector. Returns the number of bytes appended.
///
/// # Errors
///
/// Those of [`canonical_copy`]. A refusal leaves the vector as it was.
pub fn canonical_words_into(
    frame: impl AsRef<[u8]>,
    limits: Limits,
    to: &mut Vec<u8>,
) -> Result<usize, Error> {
    framed(frame.as_ref(), limits)?.copy_into(Form::Flat, to)
}

/// The SHA-256 of the canonical words of the message, which are the bytes that [`canonical_words`] returns. It names the
/// value: messages with equal values have the same. It takes no vector for the words.
///
/// # Errors
///
/// Those of [`canonical_copy`].
pub fn digest(frame: impl AsRef<[u8]>, limits: Limits) -> Result<[u8; 32], Error> {
    framed(frame.as_ref(), limits)?.digest()
}

/// The SHA-256 of `prefix` and then the canonical words. Canonical words don't tell their type: with the 8 bytes
/// of a type id as the prefix, the digest and a signature of it cover the type.
///
/// # Errors
///
/// Those of [`canonical_copy`].
pub fn digest_with(
    prefix: impl AsRef<[u8]>,
    frame: impl AsRef<[u8]>,
    limits: Limits,
) -> Result<[u8; 32], Error> {
    framed(frame.as_ref(), limits)?.digest_after(prefix.as_ref())
}

/// Whether two messages have the same value: whether [`canonical_words`] returns the same for both. To compare one message
/// with many, compare digests.
///
/// # Errors
///
/// Those of [`canonical_copy`], for the first of the messages that is refused. Each is read within the limits.
pub fn equal(
    frame: impl AsRef<[u8]>,
    other: impl AsRef<[u8]>,
    limits: Limits,
) -> Result<bool, Error> {
    let message = framed(frame.as_ref(), limits)?;
    message.equals(framed(other.as_ref(), limits)?)
}

/// Makes a part of the message canonical, and returns its raw words: the value at the end of a path. The path is the
/// indexes of pointers, from the root pointer on; `&[0]` is the first pointer of the root struct. In a list, an index is
/// that of an element. The rest of the message isn't read.
///
/// # Errors
///
/// [`Error::NO_SUCH_PLACE`] if the path leads nowhere; otherwise those of [`canonical_copy`], without a place.
pub fn canonical_words_at(
    frame: impl AsRef<[u8]>,
    path: &[u32],
    limits: Limits,
) -> Result<Vec<u8>, Error> {
    let mut to = Vec::new();
    framed(frame.as_ref(), limits)?.part_into(path, &mut to)?;
    Ok(to)
}

/// The SHA-256 of the bytes that [`canonical_words_at`] returns.
///
/// # Errors
///
/// Those of [`canonical_words_at`].
pub fn digest_at(frame: impl AsRef<[u8]>, path: &[u32], limits: Limits) -> Result<[u8; 32], Error> {
    framed(frame.as_ref(), limits)?.digest_part(path)
}

/// The SHA-256 of `prefix` and then the bytes that [`canonical_words_at`] returns.
///
/// # Errors
///
/// Those of [`canonical_words_at`].
pub fn digest_with_at(
    prefix: impl AsRef<[u8]>,
    frame: impl AsRef<[u8]>,
    path: &[u32],
    limits: Limits,
) -> Result<[u8; 32], Error> {
    framed(frame.as_ref(), limits)?.digest_part_after(prefix.as_ref(), path)
}

/// Says why and where the message of the frame at the front of a slice isn't canonical; `None` if it is: one segment
/// that holds the canonical words of a value and nothing else.
///
/// # Errors
///
/// Refused if there is no whole frame, or if its one segment can't be read within the limits. A capability isn't refused:
/// it is the fault [`Reason::CAPABILITY`].
pub fn check(frame: impl AsRef<[u8]>, limits: Limits) -> Result<Option<Fault>, Error> {
    framed(frame.as_ref(), limits)?.check()
}

/// Whether the message of the frame at the front of a slice is canonical. Also false if it can't be read, because a
/// limit is exceeded or the bytes aren't a frame; [`check`] says why.
#[must_use]
pub fn is_canonical(frame: impl AsRef<[u8]>, limits: Limits) -> bool {
    framed(frame.as_ref(), limits).is_ok_and(Message::is_canonical)
}

/// The size of the part of the message that [`canonical_words_at`] copies.
///
/// # Errors
///
/// [`Error::NO_SUCH_PLACE`] if the path leads nowhere; otherwise those of [`size`], without a place.
pub fn size_at(frame: impl AsRef<[u8]>, path: &[u32], limits: Limits) -> Result<Size, Error> {
    framed(frame.as_ref(), limits)?.size_part(path)
}

/// The size of the message of the frame at the front of a slice.
///
/// # Errors
///
/// Refused if there is no whole frame, or if its value can't be measured within the limits. Capabilities are counted.
pub fn size(frame: impl AsRef<[u8]>, limits: Limits) -> Result<Size, Error> {
    framed(frame.as_ref(), limits)?.size()
}

/// Refuses the message unless it is sound: unless its root means a value within both limits. The value may have
/// capabilities. Takes no memory.
///
/// # Errors
///
/// Refused if there is no whole frame, or if its value can't be read within the limits.
pub fn validate(frame: impl AsRef<[u8]>, limits: Limits) -> Result<Extent, Error> {
    framed(frame.as_ref(), limits)?.validate()
}

/// The pointer at which the message is broken: the first pointer, in the order of reading, whose object can't be read.
/// `reading` says for which calls: the message is read as they read it. An [`Error`] of one of them has this place, so
/// you need this call only if you have no error. `None` if the whole value is read. Takes no memory.
///
/// ```
/// use capnp_canonical::{locate, validate, Limits, Reading};
///
/// // The root is a struct of one word, which isn't there.
/// let frame = [[0, 0, 0, 0, 1, 0, 0, 0], [0, 0, 0, 0, 1, 0, 0, 0]].concat();
/// let broken = locate(&frame, Reading::Value, Limits::default())?.expect("a broken pointer");
/// assert_eq!((broken.segment, broken.word), (0, 0));
/// let error = validate(&frame, Limits::default()).expect_err("a refusal");
/// assert_eq!(error.pointer(), broken.error.pointer());
/// # Ok::<(), capnp_canonical::Error>(())
/// ```
///
/// # Errors
///
/// Refused only if there is no whole frame.
pub fn locate(
    frame: impl AsRef<[u8]>,
    reading: Reading,
    limits: Limits,
) -> Result<Option<Broken>, Error> {
    Ok(framed(frame.as_ref(), limits)?.locate(reading))
}

/// The structs, lists and capabilities of the message, at most `most` of them. A broken message is listed up to its first
/// broken pointer. No message has more objects than `limits.words`. Takes memory for the objects that there are, also
/// if `most` is larger.
///
/// ```
/// use capnp_canonical::{walk, Kind, Limits};
///
/// // The root is a struct of one word.
/// let frame = [[0, 0, 0, 0, 2, 0, 0, 0], [0, 0, 0, 0, 1, 0, 0, 0], [0x11; 8]].concat();
/// let found = walk(&frame, 100, Limits::default())?;
/// assert_eq!((found.count, found.objects[0].kind, found.objects[0].word), (1, Kind::Struct, 1));
/// # Ok::<(), capnp_canonical::Error>(())
/// ```
///
/// # Errors
///
/// Refused if there is no whole frame, or no memory for the list.
pub fn walk(frame: impl AsRef<[u8]>, most: usize, limits: Limits) -> Result<Walk, Error> {
    framed(frame.as_ref(), limits)?.walk(most)
}

/// The size in bytes of the frame at the front, which may have at most `words` words. Its message isn't read.
///
/// # Errors
///
/// Refused if there is no whole frame, or one with more segments or words.
pub fn frame_size(stream: impl AsRef<[u8]>, words: u64) -> Result<usize, Error> {
    Ok(first_frame(stream.as_ref(), words)?.size_in_bytes())
}

/// How many bytes of a stream to have, from the start of a frame on, before [`frame_size`] finds the frame whole: the
/// size of the frame if `prefix`, its first bytes, contains its segment table; otherwise the size of the table as far as
/// they tell it, which is more than `prefix` has.
///
/// # Errors
///
/// Refused if `prefix` tells that the frame has more than 512 segments or `words` words.
pub fn frame_size_from_prefix(prefix: impl AsRef<[u8]>, words: u64) -> Result<usize, Error> {
    size_from_prefix(prefix.as_ref(), words).map_err(Error::of_frame)
}

/// The version of the library whose functions the crate calls: major * 10000 + minor * 100 + patch.
#[must_use]
pub fn version() -> u32 {
    capnp_canonical_version()
}

#[cfg(doctest)]
#[doc = include_str!("../README.md")]
struct Readme;
