//! Writes a message in canonical form as a frame (encoding specification, "Canonicalization" and
//! "Serialization Over a Stream").

use super::canonical_copy::canonicalize_pointer;
use super::canonical_error::CanonicalError;
use super::command::Form;
use super::copy_memory::CopyMemory;
use crate::proved::capnp_arena::arena::{
    Allocator, BuilderArena, BuilderArenaImpl, OutputSegments, ReaderArena,
};
use crate::proved::capnp_framing::devices::{write_all, DeviceFault, Output};
use crate::proved::capnp_framing::framing::{write, FrameError};
use crate::proved::capnp_pointers::pointers::Pointer;
use crate::proved::capnp_words::read_limiter::ReadLimiter;
use crate::proved::support::alloc::Global;

/// The bytes of the segment's whole words.
pub(super) fn whole_words(segment: &[u8]) -> &[u8] {
    &segment[..8 * (segment.len() / 8)]
}

/// The bytes of the words of `made`. Precondition: `made` has exactly one segment.
///
/// # Preconditions
///
/// ```text
/// requires { length (⟦<BuilderArenaImpl<A> as ReaderArena>⟧.segments made.now) ≡ 1 }
/// ```
pub fn canonical_bytes<A: Allocator>(made: &BuilderArenaImpl<A>) -> &[u8] {
    match made.get_segments_for_output() {
        Ok(OutputSegments::SingleSegment(segment)) => whole_words(segment),
        _ => unreachable!(),
    }
}

/// Writes a frame whose one segment is the whole words of `segment`.
///
/// # Preconditions
///
/// ```text
/// requires works { W.has_failed output.old ≡ false }
/// requires short { length segment.now < 2 ^ 35 }
/// ```
pub(super) fn write_framed<W: Output>(output: &mut W, segment: &[u8]) -> Result<(), DeviceFault> {
    match write(output, &OutputSegments::SingleSegment(segment)) {
        Ok(()) => Ok(()),
        Err(_) => Err(DeviceFault),
    }
}

/// Writes `bytes`, in a frame of one segment or without a frame, as `form` says. Preconditions:
/// `output` hasn't failed; `bytes` is whole words, fewer than 2^32.
///
/// # Preconditions
///
/// ```text
/// requires works { W.has_failed output.old ≡ false }
/// requires short { length bytes.now < 2 ^ 35 }
/// requires whole { bytes.now ≡ bytes_of_words (words_of bytes.now) }
/// ```
pub fn write_words<W: Output>(output: &mut W, bytes: &[u8], form: Form) -> Result<(), DeviceFault> {
    match form {
        Form::Framed => write_framed(output, bytes),
        Form::Flat => write_all(output, bytes),
    }
}

/// Writes the message `made` as a frame. Preconditions: `output` hasn't failed; `made` has exactly
/// one segment. Refuses only with `Frame(WriteFailed)`, if the output fails.
///
/// # Preconditions
///
/// ```text
/// requires works { W.has_failed output.old ≡ false }
/// requires single { length (⟦<BuilderArenaImpl<A> as ReaderArena>⟧.segments made.now) ≡ 1 }
/// ```
pub fn write_copy<W: Output, A: Allocator>(
    output: &mut W,
    made: &BuilderArenaImpl<A>,
) -> Result<(), CanonicalError> {
    match write_framed(output, canonical_bytes(made)) {
        Ok(()) => Ok(()),
        Err(DeviceFault) => Err(CanonicalError::Frame(FrameError::WriteFailed)),
    }
}

/// Writes the value of `from` as the frame of a canonical message: one segment with the value's
/// canonical words. Precondition: `output` hasn't failed.
///
/// Copies the value first, like `canonicalize_pointer`. `lim` is charged for one copy, and counts
/// each non-null pointer once, even if a segment was too small and the copy was made again.
///
/// Refusals: `Layout` if the value can't be copied, with `MessageTooLarge(536870911)` inside if the
/// copy has more than 536,870,911 words. After `Layout`, nothing is written, and `lim` is
/// unchanged. `Frame(WriteFailed)` if the output fails. After it, `lim` is charged for the copy,
/// and how many bytes of the frame were written is unspecified.
///
/// # Preconditions
///
/// ```text
/// requires { W.has_failed output.old ≡ false }
/// ```
pub fn write_canonical<W: Output, B: ReaderArena>(
    alloc: Global,
    output: &mut W,
    from: Pointer<'_, B>,
    lim: &mut ReadLimiter,
) -> Result<(), CanonicalError> {
    match canonicalize_pointer(alloc, CopyMemory::new(alloc), from, lim) {
        Ok(made) => write_copy(output, &made),
        Err((kind, _)) => Err(CanonicalError::Layout(kind)),
    }
}
