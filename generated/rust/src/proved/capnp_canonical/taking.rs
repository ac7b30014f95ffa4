//! Lends the canonical words of a message, or of a part of one, to a `WordTaker`: to be copied into
//! a buffer, hashed after a prefix, or compared with other words.

use crate::proved::capnp_arena::arena::{
    BuilderArenaImpl, HeapAllocator, ReaderArena, ReaderArenaImpl, ReaderSegments,
};
use crate::proved::capnp_canonical::calls::{put, Limits};
use crate::proved::capnp_canonical::refusal::Refusal;
use crate::proved::capnp_messages::messages::{
    canonical_bytes, canonical_segment, canonicalize, canonicalize_into, canonicalize_part,
    canonicalize_part_into, Form, LentMemory,
};
use crate::proved::support::alloc::Global;
use crate::proved::support::sha2::{Digest, Sha256};

/// What takes canonical words.
pub trait WordTaker {
    /// What it makes of them.
    type Output;

    /// Takes `words`, the bytes of canonical words. Precondition: `words` has at most 536,870,911
    /// words.
    ///
    /// # Preconditions
    ///
    /// ```text
    /// requires { length words.now ≤ 8 * max_segment_words }
    /// ```
    fn take(&mut self, words: &[u8]) -> Self::Output;
}

/// Writes the words to the front of a buffer, in a frame or without one.
pub struct Room<'a> {
    /// How the words are written.
    pub form: Form,
    /// The buffer.
    pub to: &'a mut [u8],
}

impl WordTaker for Room<'_> {
    type Output = Result<usize, Refusal>;

    fn take(&mut self, words: &[u8]) -> Result<usize, Refusal> {
        put(self.form, words, self.to)
    }
}

/// Makes the SHA-256 of a prefix and then the words.
#[derive(Clone, Copy)]
pub struct Prefix<'a> {
    /// The bytes before the words.
    pub bytes: &'a [u8],
}

impl WordTaker for Prefix<'_> {
    type Output = [u8; 32];

    fn take(&mut self, words: &[u8]) -> [u8; 32] {
        let mut hasher = Sha256::new();
        hasher.update(self.bytes);
        hasher.update(words);
        hasher.finalize()
    }
}

/// Tells whether the words are these.
#[derive(Clone, Copy)]
pub struct Beside<'a> {
    /// The bytes of other words.
    pub words: &'a [u8],
}

impl WordTaker for Beside<'_> {
    type Output = bool;

    fn take(&mut self, words: &[u8]) -> bool {
        self.words == words
    }
}

/// The size in bytes of the stack memory into which a small message or part is copied.
const SMALL: usize = 512;

/// Lends the words of a canonical copy of the message in `source` that is made on the heap.
#[inline(never)]
fn lend_from_heap<S: ReaderSegments, T: WordTaker>(
    alloc: Global,
    source: &ReaderArenaImpl<S>,
    traversal_limit_in_words: Option<usize>,
    taker: &mut T,
) -> Result<T::Output, Refusal> {
    let allocator = HeapAllocator::new(alloc, 0);
    match canonicalize(alloc, allocator, source, traversal_limit_in_words) {
        Ok(made) => Ok(taker.take(canonical_bytes(&made))),
        Err((kind, _)) => Err(Refusal::Layout(kind)),
    }
}

/// Like `lend_from_heap`, but makes the copy in `SMALL` bytes of stack memory if it fits there.
fn lend_small<S: ReaderSegments, T: WordTaker>(
    alloc: Global,
    source: &ReaderArenaImpl<S>,
    traversal_limit_in_words: Option<usize>,
    taker: &mut T,
) -> Result<T::Output, Refusal> {
    let mut memory = [0u8; SMALL];
    let mut made = BuilderArenaImpl::new(alloc, LentMemory::new(memory.as_mut_slice()));
    let room = SMALL as u32 / 8;
    match canonicalize_into(&mut made, room, source, traversal_limit_in_words) {
        Ok(fits) => {
            if fits {
                Ok(taker.take(canonical_bytes(&made)))
            } else {
                lend_from_heap(alloc, source, traversal_limit_in_words, taker)
            }
        }
        Err(kind) => Err(Refusal::Layout(kind)),
    }
}

/// Like `lend_from_heap`, but if the message is canonical already, lends its own segment.
fn lend_unless_canonical<S: ReaderSegments, T: WordTaker>(
    alloc: Global,
    source: &ReaderArenaImpl<S>,
    traversal_limit_in_words: Option<usize>,
    taker: &mut T,
) -> Result<T::Output, Refusal> {
    match canonical_segment(source, traversal_limit_in_words) {
        Some(words) => Ok(taker.take(words)),
        None => lend_from_heap(alloc, source, traversal_limit_in_words, taker),
    }
}

/// Lends the canonical words of the message in `segments` to `taker`, and returns what that makes
/// of them. Precondition: `segments` has fewer than 2^32 segments, each of fewer than 2^32 words.
///
/// Takes heap memory if a message of fewer than 64 words has more than 64 canonical words, or if a
/// larger one isn't canonical.
///
/// # Preconditions
///
/// ```text
/// requires { IsSmall (S.segments segments) }
/// ```
pub fn lend_words<S: ReaderSegments, T: WordTaker>(
    alloc: Global,
    segments: S,
    limits: Limits,
    taker: &mut T,
) -> Result<T::Output, Refusal> {
    let options = limits.options();
    let source = ReaderArenaImpl::new(segments, options);
    if source.size_in_words() < SMALL / 8 {
        lend_small(alloc, &source, options.traversal_limit_in_words, taker)
    } else {
        lend_unless_canonical(alloc, &source, options.traversal_limit_in_words, taker)
    }
}

/// Lends the words of a canonical copy of a part of the message in `source` that is made on the
/// heap.
#[inline(never)]
fn lend_part_from_heap<S: ReaderSegments, T: WordTaker>(
    alloc: Global,
    source: &ReaderArenaImpl<S>,
    path: &[u32],
    traversal_limit_in_words: Option<usize>,
    taker: &mut T,
) -> Result<T::Output, Refusal> {
    let allocator = HeapAllocator::new(alloc, 0);
    match canonicalize_part(alloc, allocator, source, path, traversal_limit_in_words) {
        Ok(made) => Ok(taker.take(canonical_bytes(&made))),
        Err((kind, _)) => Err(Refusal::Layout(kind)),
    }
}

/// Like `lend_part_from_heap`, but makes the copy in `SMALL` bytes of stack memory if it fits
/// there.
fn lend_small_part<S: ReaderSegments, T: WordTaker>(
    alloc: Global,
    source: &ReaderArenaImpl<S>,
    path: &[u32],
    traversal_limit_in_words: Option<usize>,
    taker: &mut T,
) -> Result<T::Output, Refusal> {
    let mut memory = [0u8; SMALL];
    let mut made = BuilderArenaImpl::new(alloc, LentMemory::new(memory.as_mut_slice()));
    let room = SMALL as u32 / 8;
    match canonicalize_part_into(&mut made, room, source, path, traversal_limit_in_words) {
        Ok(fits) => {
            if fits {
                Ok(taker.take(canonical_bytes(&made)))
            } else {
                lend_part_from_heap(alloc, source, path, traversal_limit_in_words, taker)
            }
        }
        Err(kind) => Err(Refusal::Layout(kind)),
    }
}

/// Lends the canonical words of the part of the message in `segments` to which `path` leads to
/// `taker`, and returns what that makes of them. Precondition: `segments` has fewer than 2^32
/// segments, each of fewer than 2^32 words. Takes heap memory only if there are more than 64 words.
///
/// # Preconditions
///
/// ```text
/// requires { IsSmall (S.segments segments) }
/// ```
pub fn lend_part_words<S: ReaderSegments, T: WordTaker>(
    alloc: Global,
    segments: S,
    path: &[u32],
    limits: Limits,
    taker: &mut T,
) -> Result<T::Output, Refusal> {
    let options = limits.options();
    let source = ReaderArenaImpl::new(segments, options);
    lend_small_part(
        alloc,
        &source,
        path,
        options.traversal_limit_in_words,
        taker,
    )
}
