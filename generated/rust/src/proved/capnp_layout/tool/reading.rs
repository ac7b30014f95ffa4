//! Reads all bytes of an input into memory.

use super::lines::{append_bytes, InputFault};
use crate::proved::capnp_arena::arena::Allocator;
use crate::proved::capnp_layout::devices::Input;
use crate::proved::support::alloc::Global;
use crate::proved::support::vec::Vec;

/// Reads all bytes that an input still has. Refusals, which lose the bytes read so far: `BadInput`
/// if a read failed; `NoMemory` if `allocator` refused a byte, and counted the refusal. The list of
/// bytes has its memory from `alloc`. Each byte is appended by `Allocator::keep`, so `allocator`
/// may refuse any of them.
///
/// # Preconditions
///
/// ```text
/// requires { R.has_failed input.old ≡ false }
/// ```
pub(in crate::proved::capnp_layout) fn read_to_end<A: Allocator, R: Input>(
    alloc: Global,
    allocator: &mut A,
    input: &mut R,
) -> Result<Vec<u8>, InputFault> {
    let mut text = Vec::new(alloc);
    let mut buffer = [0u8; 4096];
    loop {
        match input.read(&mut buffer) {
            Ok(0) => return Ok(text),
            Ok(n) => append_bytes(allocator, &mut text, &buffer[..n])?,
            Err(_) => return Err(InputFault::BadInput),
        }
    }
}
