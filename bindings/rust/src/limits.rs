//! What reading a message may cost.

/// The limits for reading a message. The defaults are those of `capnp::message::ReaderOptions`: 64 levels, and 8,388,608
/// words (64 MiB).
///
/// ```
/// use capnp_canonical::Limits;
///
/// let limits = Limits::default().with_words(1 << 16).with_nesting(16);
/// assert_eq!((limits.nesting, limits.words), (16, 65_536));
/// ```
#[derive(Clone, Copy, Debug, PartialEq, Eq, Hash)]
#[non_exhaustive]
pub struct Limits {
    /// How deep structs and lists may be nested, and therefore how much stack a call takes. A number above
    /// [`MAX_NESTING`](Self::MAX_NESTING) counts as that one, and one below 0 as 0.
    pub nesting: i32,
    /// How many words may be read, and how many a frame may have.
    pub words: u64,
}

impl Limits {
    /// The largest nesting limit that counts.
    pub const MAX_NESTING: i32 = 1024;

    /// These two limits. The arguments are easily swapped: prefer [`with_nesting`](Self::with_nesting) and
    /// [`with_words`](Self::with_words).
    #[deprecated(
        since = "1.1.0",
        note = "the arguments are easily swapped: write Limits::default().with_nesting(..).with_words(..)"
    )]
    #[must_use]
    pub const fn new(nesting: i32, words: u64) -> Self {
        Limits { nesting, words }
    }

    /// The same limits, except that so many structs and lists may be nested.
    #[must_use]
    pub const fn with_nesting(self, nesting: i32) -> Self {
        Limits { nesting, ..self }
    }

    /// The same limits, except that so many words may be read.
    #[must_use]
    pub const fn with_words(self, words: u64) -> Self {
        Limits { words, ..self }
    }

    /// The nesting limit that holds.
    pub(crate) fn levels(self) -> i32 {
        self.nesting.min(Self::MAX_NESTING)
    }
}

impl Default for Limits {
    fn default() -> Self {
        Limits {
            nesting: 64,
            words: 8_388_608,
        }
    }
}
