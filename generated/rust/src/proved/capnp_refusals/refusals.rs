//! Finds the pointer at which a command on a message stops reading. The message is read once more,
//! so that the command itself doesn't have to remember where it is.

mod search;

use crate::proved::capnp_arena::arena::{ReaderArenaImpl, ReaderOptions, ReaderSegments};
use crate::proved::capnp_messages::messages::{read_root, Command};
use crate::proved::capnp_pointers::object::Purpose;
use crate::proved::capnp_words::error::ErrorKind;
use crate::proved::capnp_words::read_limiter::ReadLimiter;
pub use search::{search_value, Demands, RefusedPointer};

/// Returns what `command` demands of the objects that it reads.
fn demands_of(command: Command) -> Demands {
    match command {
        Command::Canon(_) | Command::Digest => Demands {
            purpose: Purpose::Value,
            capabilities: false,
        },
        Command::Check | Command::Validate => Demands {
            purpose: Purpose::Value,
            capabilities: true,
        },
        Command::Size => Demands {
            purpose: Purpose::Size,
            capabilities: true,
        },
    }
}

/// Returns the pointer at which `command` stops reading the message in `segments` within `limits`,
/// with the refusal; `None` if `command` reads the whole value. If the root pointer itself is
/// refused, returns its place, word 0 of segment 0. Takes no memory. Precondition: `segments` has
/// fewer than 2^32 segments, each of fewer than 2^32 words.
///
/// `Canon`, `Digest`: the pointer whose object can't be read, or is a capability. `Validate` and
/// `Check`: the pointer whose object can't be read; for `Check` this is so only if the message has
/// one segment, and no fault comes before that pointer. `Size`: the pointer whose object can't be
/// measured.
///
/// # Preconditions
///
/// ```text
/// requires { IsSmall (S.segments segments) }
/// ```
pub fn refused_pointer<S: ReaderSegments>(
    command: Command,
    segments: S,
    limits: ReaderOptions,
) -> Option<RefusedPointer> {
    let arena = ReaderArenaImpl::new(segments, limits);
    let mut lim = ReadLimiter::new(limits.traversal_limit_in_words);
    match read_root(&arena, &mut lim) {
        Ok(root) => search_value(demands_of(command), &root, &mut lim),
        Err(refusal) => Some(RefusedPointer {
            segment: 0,
            word: 0,
            refusal,
        }),
    }
}

/// Whether a refusal of a command is that of a pointer. Others are `AllocationFailed` and
/// `MessageTooLarge`.
fn has_pointer(refusal: ErrorKind) -> bool {
    !matches!(
        refusal,
        ErrorKind::AllocationFailed | ErrorKind::MessageTooLarge(_)
    )
}

/// Returns the pointer at which `command` was refused with `refusal`, like `refused_pointer`;
/// `None` for a refusal that no pointer has: `AllocationFailed` or `MessageTooLarge`. Precondition:
/// `segments` has fewer than 2^32 segments, each of fewer than 2^32 words.
///
/// # Preconditions
///
/// ```text
/// requires { IsSmall (S.segments segments) }
/// ```
pub fn pointer_of_refusal<S: ReaderSegments>(
    refusal: ErrorKind,
    command: Command,
    segments: S,
    limits: ReaderOptions,
) -> Option<RefusedPointer> {
    if has_pointer(refusal) {
        refused_pointer(command, segments, limits)
    } else {
        None
    }
}
