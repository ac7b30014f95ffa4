//! Makes a canonical copy of a message, tests it for canonical form, and measures it, for any type
//! that holds the message's segments.

use crate::proved::capnp_arena::arena::{ReaderArenaImpl, ReaderOptions, ReaderSegments};
use crate::proved::capnp_canonical::refusal::Refusal;
use crate::proved::capnp_canonical::taking::{lend_words, Room};
use crate::proved::capnp_messages::messages;
use crate::proved::capnp_messages::messages::Form;
use crate::proved::capnp_pointers::pointers::{CanonicalFault, MessageSize};
use crate::proved::support::alloc::Global;

/// The limits for reading a message.
#[derive(Clone, Copy)]
pub struct Limits {
    /// The nesting limit: how many structs and lists may be inside one another.
    pub nesting: i32,
    /// The traversal limit, in words.
    pub words: u64,
}

impl Limits {
    /// These limits as options of a reader.
    pub fn options(self) -> ReaderOptions {
        ReaderOptions {
            nesting_limit: self.nesting,
            traversal_limit_in_words: Some(self.words as usize),
        }
    }
}

/// The segment table of a frame with one segment of `words` words.
fn table(words: u32) -> [u8; 8] {
    let [a, b, c, d] = words.to_le_bytes();
    [0, 0, 0, 0, a, b, c, d]
}

/// Writes a frame whose one segment is `segment` to the front of `to`, and returns the frame's size
/// in bytes.
///
/// # Preconditions
///
/// ```text
/// requires short { length segment.now < 2 ^ 35 }
/// ```
fn put_frame(segment: &[u8], to: &mut [u8]) -> Result<usize, Refusal> {
    let size = 8 + segment.len();
    if to.len() < size {
        return Err(Refusal::NoRoom(size));
    }
    to[..8].copy_from_slice(&table((segment.len() / 8) as u32));
    to[8..size].copy_from_slice(segment);
    Ok(size)
}

/// Writes `segment` to the front of `to`, and returns the size of `segment` in bytes.
fn put_flat(segment: &[u8], to: &mut [u8]) -> Result<usize, Refusal> {
    let size = segment.len();
    if to.len() < size {
        return Err(Refusal::NoRoom(size));
    }
    to[..size].copy_from_slice(segment);
    Ok(size)
}

/// Writes `segment` to the front of `to`, in a frame or without one, as `form` says. Returns the
/// number of bytes written. Precondition: `segment` has fewer than 2^35 bytes.
///
/// # Preconditions
///
/// ```text
/// requires short { length segment.now < 2 ^ 35 }
/// ```
pub fn put(form: Form, segment: &[u8], to: &mut [u8]) -> Result<usize, Refusal> {
    match form {
        Form::Framed => put_frame(segment, to),
        Form::Flat => put_flat(segment, to),
    }
}

/// Makes a canonical copy of the message in `segments`, and writes the copy to the front of `to`,
/// in a frame or without one, as `form` says. Returns the number of bytes written. Precondition:
/// `segments` has fewer than 2^32 segments, each of fewer than 2^32 words. Takes heap memory like
/// `lend_words`.
///
/// # Preconditions
///
/// ```text
/// requires { IsSmall (S.segments segments) }
/// ```
pub fn copy<S: ReaderSegments>(
    alloc: Global,
    form: Form,
    segments: S,
    limits: Limits,
    to: &mut [u8],
) -> Result<usize, Refusal> {
    let mut room = Room { form, to };
    match lend_words(alloc, segments, limits, &mut room) {
        Ok(written) => written,
        Err(refusal) => Err(refusal),
    }
}

/// Returns why and where the message in `segments` isn't canonical; `None` if it is. Precondition:
/// `segments` has fewer than 2^32 segments, each of fewer than 2^32 words.
///
/// # Preconditions
///
/// ```text
/// requires { IsSmall (S.segments segments) }
/// ```
pub fn check<S: ReaderSegments>(
    segments: S,
    limits: Limits,
) -> Result<Option<CanonicalFault>, Refusal> {
    let options = limits.options();
    let source = ReaderArenaImpl::new(segments, options);
    match messages::check(&source, options.traversal_limit_in_words) {
        Ok(found) => Ok(found),
        Err(kind) => Err(Refusal::Layout(kind)),
    }
}

/// Counts the words and capabilities of the message in `segments`, without the root pointer and
/// landing pads. Precondition: `segments` has fewer than 2^32 segments, each of fewer than 2^32
/// words.
///
/// # Preconditions
///
/// ```text
/// requires { IsSmall (S.segments segments) }
/// ```
pub fn size<S: ReaderSegments>(segments: S, limits: Limits) -> Result<MessageSize, Refusal> {
    let options = limits.options();
    let source = ReaderArenaImpl::new(segments, options);
    match messages::size(&source, options.traversal_limit_in_words) {
        Ok(size) => Ok(size),
        Err(kind) => Err(Refusal::Layout(kind)),
    }
}
