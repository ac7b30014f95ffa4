//! Copies, hashes and measures what a task is about: the whole message, or the part of it to which
//! the task's path leads. Tests whole messages.

use super::task::Task;
use crate::proved::capnp_arena::arena::{
    Allocator, BuilderArena, BuilderArenaImpl, ReaderArena, ReaderArenaImpl, ReaderOptions,
    ReaderSegments,
};
use crate::proved::capnp_messages::messages;
use crate::proved::capnp_messages::messages::MessageExtent;
use crate::proved::capnp_pointers::pointers::{CanonicalFault, MessageSize};
use crate::proved::capnp_words::error::ErrorKind;
use crate::proved::support::alloc::Global;

/// Makes the canonical copy that `task` asks for of the message in `source`, like `canonicalize` or
/// `canonicalize_part`, within the nesting limit of `source`.
pub(super) fn canonicalize_for_task<A: Allocator, S: ReaderSegments>(
    alloc: Global,
    allocator: A,
    source: &ReaderArenaImpl<S>,
    task: Task,
) -> Result<BuilderArenaImpl<A>, (ErrorKind, A)> {
    let words = task.limits.traversal_limit_in_words;
    let path = task.path.indexes();
    if path.is_empty() {
        messages::canonicalize(alloc, allocator, source, words)
    } else {
        messages::canonicalize_part(alloc, allocator, source, path, words)
    }
}

/// Returns the digest that `task` asks for of the message, and the allocator, like `digest` or
/// `digest_of_part`.
///
/// # Preconditions
///
/// ```text
/// requires { IsSmall (S.segments segments) }
/// ```
pub(super) fn digest_for_task<A: Allocator, S: ReaderSegments>(
    alloc: Global,
    allocator: A,
    segments: S,
    task: Task,
) -> (Result<[u8; 32], ErrorKind>, A) {
    let source = ReaderArenaImpl::new(segments, task.limits);
    let words = task.limits.traversal_limit_in_words;
    let path = task.path.indexes();
    if path.is_empty() {
        messages::digest(alloc, allocator, &source, words)
    } else {
        messages::digest_of_part(alloc, allocator, &source, path, words)
    }
}

/// Counts the words and capabilities that `task` asks for, like `size` or `size_of_part`.
///
/// # Preconditions
///
/// ```text
/// requires { IsSmall (S.segments segments) }
/// ```
pub(super) fn size_for_task<S: ReaderSegments>(
    segments: S,
    task: Task,
) -> Result<MessageSize, ErrorKind> {
    let source = ReaderArenaImpl::new(segments, task.limits);
    let words = task.limits.traversal_limit_in_words;
    let path = task.path.indexes();
    if path.is_empty() {
        messages::size(&source, words)
    } else {
        messages::size_of_part(&source, path, words)
    }
}

/// Returns where and why the message in `segments` isn't canonical as a whole, or `None` if it is,
/// like `check` of `capnp_messages`.
///
/// # Preconditions
///
/// ```text
/// requires { IsSmall (S.segments segments) }
/// ```
pub(super) fn check<S: ReaderSegments>(
    segments: S,
    limits: ReaderOptions,
) -> Result<Option<CanonicalFault>, ErrorKind> {
    let source = ReaderArenaImpl::new(segments, limits);
    messages::check(&source, limits.traversal_limit_in_words)
}

/// Tests whether the message in `segments` is sound, like `validate` of `capnp_messages`.
///
/// # Preconditions
///
/// ```text
/// requires { IsSmall (S.segments segments) }
/// ```
pub(super) fn validate<S: ReaderSegments>(
    segments: S,
    limits: ReaderOptions,
) -> Result<MessageExtent, ErrorKind> {
    let source = ReaderArenaImpl::new(segments, limits);
    messages::validate(&source, limits.traversal_limit_in_words)
}
