//! What a function for C does with what it made: it stores that, and returns a number.

use crate::proved::capnp_canonical::refusal::Refusal;
use crate::proved::capnp_pointers::pointers::MessageSize;

/// Stores in `to` what a call made, or `otherwise` if it is refused. Returns 0, or the number of
/// the refusal.
pub fn store<T: Copy>(made: Result<T, Refusal>, otherwise: T, to: &mut T) -> u32 {
    match made {
        Ok(value) => {
            *to = value;
            0
        }
        Err(refusal) => {
            *to = otherwise;
            refusal.number()
        }
    }
}

/// Stores in `written` how many bytes a call wrote, or if it is refused for lack of room, how many
/// are needed; 0 after any other refusal. Returns 0, or the number of the refusal.
pub fn store_written(wrote: Result<usize, Refusal>, written: &mut usize) -> u32 {
    match wrote {
        Ok(size) => {
            *written = size;
            0
        }
        Err(refusal) => {
            *written = refusal.wanted_room();
            refusal.number()
        }
    }
}

/// Stores the size of a message, or of a part; after a refusal both numbers are 0. Returns 0, or
/// the number of the refusal.
pub fn store_size(
    size: Result<MessageSize, Refusal>,
    word_count: &mut u64,
    cap_count: &mut u32,
) -> u32 {
    match size {
        Ok(size) => {
            *word_count = size.word_count;
            *cap_count = size.cap_count;
            0
        }
        Err(refusal) => {
            *word_count = 0;
            *cap_count = 0;
            refusal.number()
        }
    }
}
