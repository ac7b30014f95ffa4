//! A walk over objects that counts their words and capabilities.

use crate::proved::capnp_pointers::pointers::MessageSize;
use crate::proved::capnp_words::error::ErrorKind;
use crate::proved::capnp_words::read_limiter::ReadLimiter;
use core::mem;

/// A walk over objects: the sums so far, and the limiter that it charges.
pub(in crate::proved::capnp_pointers) struct Walk {
    /// The sums so far.
    pub(in crate::proved::capnp_pointers) sums: Sums,
    /// The limiter, moved here during the walk.
    pub(in crate::proved::capnp_pointers) lim: ReadLimiter,
}

/// The sums of a walk, and its refusal once it has stopped. The refusal is here so that calls
/// return a `Result` with `Stopped`, which fits a register; a `Result` with the refusal would be
/// written to memory at each level.
pub(in crate::proved::capnp_pointers) struct Sums {
    /// The sums so far.
    pub(in crate::proved::capnp_pointers) size: MessageSize,
    /// Why the walk stopped. Before that, it has no meaning.
    pub(in crate::proved::capnp_pointers) refusal: ErrorKind,
}

/// The walk has stopped, with its `refusal`.
#[derive(Clone, Copy)]
pub(in crate::proved::capnp_pointers) struct Stopped;

impl Walk {
    /// Begins a walk whose sum of words starts at `words`, and moves the limiter from `lim` into
    /// it. The caller moves the limiter back at the end.
    #[inline]
    pub(in crate::proved::capnp_pointers) fn begin(words: u64, lim: &mut ReadLimiter) -> Self {
        let size = MessageSize {
            word_count: words,
            cap_count: 0,
        };
        Walk {
            sums: Sums {
                size,
                refusal: ErrorKind::ReadLimitExceeded,
            },
            lim: mem::replace(lim, ReadLimiter::new(None)),
        }
    }
}

impl Sums {
    /// Adds `words` to the number of words. If the sum doesn't fit 64 bits, stops the walk with
    /// `MessageTooLarge(usize::MAX)`.
    #[inline]
    pub(in crate::proved::capnp_pointers) fn add_words(
        &mut self,
        words: u64,
    ) -> Result<(), Stopped> {
        match self.size.word_count.checked_add(words) {
            Some(word_count) => {
                self.size.word_count = word_count;
                Ok(())
            }
            None => {
                self.refusal = ErrorKind::MessageTooLarge(usize::MAX);
                Err(Stopped)
            }
        }
    }

    /// Adds 1 to the number of capabilities. If the sum doesn't fit 32 bits, stops the walk with
    /// `MessageTooLarge(usize::MAX)`.
    #[inline]
    pub(in crate::proved::capnp_pointers) fn add_capability(&mut self) -> Result<(), Stopped> {
        match self.size.cap_count.checked_add(1) {
            Some(cap_count) => {
                self.size.cap_count = cap_count;
                Ok(())
            }
            None => {
                self.refusal = ErrorKind::MessageTooLarge(usize::MAX);
                Err(Stopped)
            }
        }
    }
}
