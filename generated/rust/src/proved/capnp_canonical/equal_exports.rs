//! The functions for C that compare two messages by their canonical words.

use crate::proved::capnp_canonical::calls::Limits;
use crate::proved::capnp_canonical::frames::message_in;
use crate::proved::capnp_canonical::refusal::Refusal;
use crate::proved::capnp_canonical::segments::lent_message;
use crate::proved::capnp_canonical::storing::store;
use crate::proved::capnp_canonical::taking::{lend_words, Beside, WordTaker};
use crate::proved::capnp_canonical::words::message_of;
use crate::proved::support::alloc::Global;

/// Compares words with those of the message whose frame is at the front of `bytes`.
#[derive(Clone, Copy)]
struct OtherFrame<'a> {
    alloc: Global,
    bytes: &'a [u8],
    limits: Limits,
}

impl WordTaker for OtherFrame<'_> {
    type Output = Result<bool, Refusal>;

    fn take(&mut self, words: &[u8]) -> Result<bool, Refusal> {
        match message_in(self.bytes, self.limits.words) {
            Ok(segments) => lend_words(self.alloc, segments, self.limits, &mut Beside { words }),
            Err(refusal) => Err(refusal),
        }
    }
}

/// Compares words with those of the message in the segments `bytes`.
#[derive(Clone, Copy)]
struct OtherSegments<'a> {
    alloc: Global,
    bytes: &'a [&'a [u8]],
    limits: Limits,
}

impl WordTaker for OtherSegments<'_> {
    type Output = Result<bool, Refusal>;

    fn take(&mut self, words: &[u8]) -> Result<bool, Refusal> {
        match lent_message(self.bytes) {
            Ok(lent) => lend_words(self.alloc, lent, self.limits, &mut Beside { words }),
            Err(refusal) => Err(refusal),
        }
    }
}

/// Compares words with those of the message whose one segment is `bytes`.
#[derive(Clone, Copy)]
struct OtherWords<'a> {
    alloc: Global,
    bytes: &'a [u8],
    limits: Limits,
}

impl WordTaker for OtherWords<'_> {
    type Output = Result<bool, Refusal>;

    fn take(&mut self, words: &[u8]) -> Result<bool, Refusal> {
        match message_of(self.bytes) {
            Ok(message) => lend_words(self.alloc, message, self.limits, &mut Beside { words }),
            Err(refusal) => Err(refusal),
        }
    }
}

/// Whether the messages whose frames are at the fronts of `one` and `other` have the same canonical
/// words.
fn equal_frame(alloc: Global, one: &[u8], other: &[u8], limits: Limits) -> Result<bool, Refusal> {
    let first = message_in(one, limits.words)?;
    let mut other = OtherFrame {
        alloc,
        bytes: other,
        limits,
    };
    lend_words(alloc, first, limits, &mut other)?
}

/// Whether the messages in the segments `one` and `other` have the same canonical words.
fn equal_segments(
    alloc: Global,
    one: &[&[u8]],
    other: &[&[u8]],
    limits: Limits,
) -> Result<bool, Refusal> {
    let first = lent_message(one)?;
    let mut other = OtherSegments {
        alloc,
        bytes: other,
        limits,
    };
    lend_words(alloc, first, limits, &mut other)?
}

/// Whether the messages whose one segments are `one` and `other` have the same canonical words.
fn equal_words(alloc: Global, one: &[u8], other: &[u8], limits: Limits) -> Result<bool, Refusal> {
    let first = message_of(one)?;
    let mut other = OtherWords {
        alloc,
        bytes: other,
        limits,
    };
    lend_words(alloc, first, limits, &mut other)?
}

/// Compares the messages whose frames are at the fronts of `one` and `other`: stores in `is_equal`
/// whether their canonical words are the same, which they are exactly if the values are equal.
/// `nesting` and `words` limit the reading of each, as in `capnp_canonical_check`. Refused if
/// `capnp_canonical_digest` refuses `one`, and otherwise if it refuses `other`; `is_equal` is then
/// false.
pub fn capnp_canonical_equal(
    alloc: Global,
    one: &[u8],
    other: &[u8],
    nesting: i32,
    words: u64,
    is_equal: &mut bool,
) -> u32 {
    let same = equal_frame(alloc, one, other, Limits { nesting, words });
    store(same, false, is_equal)
}

/// Like `capnp_canonical_equal`, for the messages in the segments `one` and `other`.
pub fn capnp_canonical_segments_equal(
    alloc: Global,
    one: &[&[u8]],
    other: &[&[u8]],
    nesting: i32,
    words: u64,
    is_equal: &mut bool,
) -> u32 {
    let same = equal_segments(alloc, one, other, Limits { nesting, words });
    store(same, false, is_equal)
}

/// Like `capnp_canonical_equal`, for two messages with one segment each, whose words the caller
/// passes as `one` and `other`, without frames.
pub fn capnp_canonical_words_equal(
    alloc: Global,
    one: &[u8],
    other: &[u8],
    nesting: i32,
    words: u64,
    is_equal: &mut bool,
) -> u32 {
    let same = equal_words(alloc, one, other, Limits { nesting, words });
    store(same, false, is_equal)
}
