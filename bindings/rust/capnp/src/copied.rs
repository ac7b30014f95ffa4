//! Values whose words `capnp` doesn't show. They are copied into a message first.
use crate::canonical_words;
use alloc::string::ToString;
use alloc::vec::Vec;
use capnp::any_pointer;
use capnp::message::{Builder, HeapAllocator, Reader, ReaderSegments};
use capnp_canonical::{Error, Limits};
use core::fmt;

/// Makes a value canonical, as raw words: whatever `set_root` sets as the root of a message, such as the reader of a
/// struct in another message.
///
/// ```
/// use capnp::message::{Reader, ReaderOptions, SegmentArray};
/// use capnp::text;
/// use capnp_canonical_capnp::{canonical_words_of, limits};
///
/// // the text "Ada"
/// let words = [1 | 34 << 32, 0x61_6441].map(u64::to_le_bytes).concat();
/// let segments = [&words[..]];
/// let options = ReaderOptions::new();
/// let message = Reader::new(SegmentArray::new(&segments), options);
/// let name: text::Reader = message.get_root()?;
///
/// let canonical = canonical_words_of(|copy| copy.set_root(name), limits(&options))?;
/// assert_eq!(canonical, words);
/// # Ok::<(), capnp::Error>(())
/// ```
///
/// **Cost.** `capnp` copies the value into memory of its own, of at least 8 KB, and the words are made from that copy.
/// If you have the segments, [`canonical_words`] is cheaper.
///
/// **Limits.** The copy is made within the limits of the message that the value is in. Like every getter, it counts
/// against that message's traversal limit. `limits` are for reading the copy, which repeats a word each time a pointer
/// leads to it.
///
/// **Refusals.** [`ValueError::Copy`] if `set_root` returns an error, as `capnp` does for a capability without its
/// table; otherwise [`ValueError::Refused`].
pub fn canonical_words_of<F>(set_root: F, limits: Limits) -> Result<Vec<u8>, ValueError>
where
    F: FnOnce(&mut Builder<HeapAllocator>) -> capnp::Result<()>,
{
    let mut copy = Builder::new_default();
    set_root(&mut copy).map_err(ValueError::Copy)?;
    // a place in the copy isn't one in the message
    canonical_words(&copy, limits).map_err(|error| ValueError::Refused(Error::from(error.number())))
}

/// Makes the message of a reader canonical, as raw words. The reader stays yours.
///
/// ```
/// use capnp::message::ReaderOptions;
/// use capnp_canonical_capnp::{canonical_words_of_reader, limits};
///
/// // a struct of three words, the last of which is zero
/// let frame = [4 << 32, 3 << 32, 7, 8, 0].map(u64::to_le_bytes).concat();
/// let options = ReaderOptions::new();
/// let message = capnp::serialize::read_message(&mut &frame[..], options)?;
///
/// let words = canonical_words_of_reader(&message, limits(&options))?;
/// assert_eq!(words, [2 << 32, 7, 8].map(u64::to_le_bytes).concat());
/// # Ok::<(), capnp::Error>(())
/// ```
///
/// Copies the message first, with the cost, the limits and the refusals of [`canonical_words_of`]. Every call counts
/// against the reader's traversal limit again: with the default limit of 64 MiB, a message of 40 MiB can be copied once.
/// If you no longer need the reader, `into_segments` makes the copy unnecessary.
pub fn canonical_words_of_reader<S: ReaderSegments>(
    message: &Reader<S>,
    limits: Limits,
) -> Result<Vec<u8>, ValueError> {
    canonical_words_of(
        |copy| copy.set_root(message.get_root::<any_pointer::Reader>()?),
        limits,
    )
}

/// Why a value that has to be copied has no canonical words.
#[derive(Clone, Debug)]
#[non_exhaustive]
pub enum ValueError {
    /// `capnp` couldn't copy the value.
    Copy(capnp::Error),
    /// The copy is refused. The error has no place, because it would be one of the copy.
    Refused(Error),
}

impl fmt::Display for ValueError {
    fn fmt(&self, f: &mut fmt::Formatter<'_>) -> fmt::Result {
        match self {
            ValueError::Copy(error) => error.fmt(f),
            ValueError::Refused(error) => error.fmt(f),
        }
    }
}

impl core::error::Error for ValueError {}

/// So that `?` takes it where the errors are those of `capnp`.
impl From<ValueError> for capnp::Error {
    fn from(error: ValueError) -> Self {
        match error {
            ValueError::Copy(error) => error,
            ValueError::Refused(error) => capnp::Error::failed(error.to_string()),
        }
    }
}
