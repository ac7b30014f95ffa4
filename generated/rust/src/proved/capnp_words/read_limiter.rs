//! The traversal limit: how many words may still be charged for reading. It bounds the cost of
//! reading a small message whose pointers lead to the same words again and again.

use crate::proved::capnp_words::error::ErrorKind;

/// What is left of a traversal limit, in words, and the number of pointers followed.
pub struct ReadLimiter {
    words: Option<usize>,
    pointers: u64,
}

impl ReadLimiter {
    /// Makes a limiter with `limit` words left; `None` means no limit.
    #[inline]
    pub fn new(limit: Option<usize>) -> Self {
        ReadLimiter {
            words: limit,
            pointers: 0,
        }
    }

    /// Charges `amount` words. Refuses with `ReadLimitExceeded` if fewer than `amount` words are
    /// left; a refusal charges nothing. Without a limit, never refuses.
    #[inline]
    pub fn can_read(&mut self, amount: usize) -> Result<(), ErrorKind> {
        if let Some(left) = self.words {
            if left < amount {
                return Err(ErrorKind::ReadLimitExceeded);
            }
            self.words = Some(left - amount);
        }
        Ok(())
    }

    /// The words left; `None` without a limit.
    #[inline]
    pub fn left(&self) -> Option<usize> {
        self.words
    }

    /// The number of non-null pointers that charged reads have followed. Once this number is
    /// `u64::MAX`, it stays the same.
    #[inline]
    pub fn followed(&self) -> u64 {
        self.pointers
    }

    /// Adds 1 to the number of pointers followed, unless that number is `u64::MAX`.
    #[inline]
    pub fn count(&mut self) {
        self.pointers = self.pointers.saturating_add(1);
    }
}
