//! Writes the value of a `PointerReader` as a canonical frame: `write_canonical` of `capnp_messages`
//! is a call on a `Pointer`.

use crate::proved::capnp_arena::arena::ReaderArena;
use crate::proved::capnp_framing::devices::Output;
use crate::proved::capnp_framing::framing::FrameError;
use crate::proved::capnp_messages::messages;
use crate::proved::capnp_messages::messages::CanonicalError;
use crate::proved::capnp_readers::readers::PointerReader;
use crate::proved::capnp_words::read_limiter::ReadLimiter;
use crate::proved::support::alloc::Global;

/// Writes the value of `from` as the frame of a canonical message: one segment with the value's
/// canonical words. Precondition: `output` hasn't failed.
///
/// Copies the value first, like `canonicalize_pointer`, with memory from the heap. `lim` is charged
/// for one copy, and counts each non-null pointer once, even if a segment was too small and the copy
/// was made again.
///
/// Refusals: `Layout`, with the refusal of the copy, if the value can't be copied; `Frame` if the
/// output fails. After `Layout`, nothing has been written, and `lim` is unchanged. After
/// `Frame`, `lim` has been charged for the copy, and how many bytes were written is unspecified.
///
/// # Preconditions
///
/// ```text
/// requires { W.has_failed output.old ≡ false }
/// ```
pub fn write_canonical<W: Output, B: ReaderArena>(
    alloc: Global,
    output: &mut W,
    from: PointerReader<'_, B>,
    lim: &mut ReadLimiter,
) -> Result<(), CanonicalError> {
    messages::write_canonical(alloc, output, from.pointer(), lim)
}
