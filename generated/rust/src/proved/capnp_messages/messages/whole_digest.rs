//! The SHA-256 of a message's canonical words, which names the message's value.

use super::already_canonical::canonical_segment;
use super::lent_memory::LentMemory;
use super::whole::{canonicalize, canonicalize_into};
use super::writing::canonical_bytes;
use crate::proved::capnp_arena::arena::{
    Allocator, BuilderArenaImpl, ReaderArena, ReaderArenaImpl, ReaderSegments,
};
use crate::proved::capnp_words::error::ErrorKind;
use crate::proved::support::alloc::Global;
use crate::proved::support::sha2::{Digest, Sha256};

/// The size in bytes of the stack memory into which a small message is copied.
const SMALL: usize = 512;

/// Like `digest`, but always makes the copy with memory from `allocator`.
#[inline(never)]
fn digest_of_copy<A: Allocator, S: ReaderSegments>(
    alloc: Global,
    allocator: A,
    source: &ReaderArenaImpl<S>,
    traversal_limit_in_words: Option<usize>,
) -> (Result<[u8; 32], ErrorKind>, A) {
    match canonicalize(alloc, allocator, source, traversal_limit_in_words) {
        Ok(made) => {
            let digest = Sha256::digest(canonical_bytes(&made));
            (Ok(digest), made.into_allocator())
        }
        Err((kind, allocator)) => (Err(kind), allocator),
    }
}

/// Like `digest`, but makes the copy in `SMALL` bytes of stack memory if it fits there.
fn digest_of_small<A: Allocator, S: ReaderSegments>(
    alloc: Global,
    allocator: A,
    source: &ReaderArenaImpl<S>,
    traversal_limit_in_words: Option<usize>,
) -> (Result<[u8; 32], ErrorKind>, A) {
    let mut memory = [0u8; SMALL];
    let mut made = BuilderArenaImpl::new(alloc, LentMemory::new(memory.as_mut_slice()));
    let room = SMALL as u32 / 8;
    match canonicalize_into(&mut made, room, source, traversal_limit_in_words) {
        Ok(fits) => {
            if fits {
                (Ok(Sha256::digest(canonical_bytes(&made))), allocator)
            } else {
                digest_of_copy(alloc, allocator, source, traversal_limit_in_words)
            }
        }
        Err(kind) => (Err(kind), allocator),
    }
}

/// Like `digest`, but if the message is canonical already, hashes its own segment instead of a
/// copy.
fn digest_of_large<A: Allocator, S: ReaderSegments>(
    alloc: Global,
    allocator: A,
    source: &ReaderArenaImpl<S>,
    traversal_limit_in_words: Option<usize>,
) -> (Result<[u8; 32], ErrorKind>, A) {
    match canonical_segment(source, traversal_limit_in_words) {
        Some(words) => (Ok(Sha256::digest(words)), allocator),
        None => digest_of_copy(alloc, allocator, source, traversal_limit_in_words),
    }
}

/// Returns the SHA-256 of the canonical words of the message in `source` (encoding specification,
/// "Canonicalization"), and the allocator. Equal values have the same digest, whatever the layout of
/// their messages.
///
/// Reads within the nesting limit of `source` and `traversal_limit_in_words`. Refuses what
/// `canonicalize` refuses. The words of a message of fewer than 64 words are made in stack memory if
/// they fit there. A message of 64 words or more that is canonical already and has at most
/// 536,870,911 words isn't copied. Any other copy takes memory from `allocator`, and returns it.
pub fn digest<A: Allocator, S: ReaderSegments>(
    alloc: Global,
    allocator: A,
    source: &ReaderArenaImpl<S>,
    traversal_limit_in_words: Option<usize>,
) -> (Result<[u8; 32], ErrorKind>, A) {
    if source.size_in_words() < SMALL / 8 {
        digest_of_small(alloc, allocator, source, traversal_limit_in_words)
    } else {
        digest_of_large(alloc, allocator, source, traversal_limit_in_words)
    }
}
