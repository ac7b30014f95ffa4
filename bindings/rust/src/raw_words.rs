//! Raw words with a type of their own.
use crate::segments::{self, Segments};
use crate::{words, Broken, Error, Extent, Fault, Limits, Reading, Size, Walk};
use alloc::vec::Vec;

/// Raw words: the bytes to hash, sign and store. The calls that take a frame don't take them, because they don't implement
/// `AsRef<[u8]>`, so the compiler refuses what those would read as another value:
///
/// ```compile_fail
/// # use capnp_canonical::{digest, Limits, Words};
/// # let frame = [0, 0, 0, 0, 1, 0, 0, 0, 0, 0, 0, 0, 0, 0, 0, 0];
/// let words = Words::of(frame, Limits::default())?;
/// digest(&words, Limits::default())?; // words aren't a frame
/// # Ok::<(), capnp_canonical::Error>(())
/// ```
///
/// The calls for raw words are methods:
///
/// ```
/// use capnp_canonical::{digest, Limits, Words};
///
/// let limits = Limits::default();
/// let frame = [0, 0, 0, 0, 1, 0, 0, 0, 0, 0, 0, 0, 0, 0, 0, 0];
/// let words = Words::of(frame, limits)?;
/// assert_eq!(words.digest(limits)?, digest(frame, limits)?);
///
/// // stored, and read back
/// let stored = words.into_bytes();
/// assert!(Words::from_bytes(&stored).is_canonical(limits));
/// # Ok::<(), capnp_canonical::Error>(())
/// ```
#[derive(Clone, Copy, Debug, Default, PartialEq, Eq, Hash, PartialOrd, Ord)]
pub struct Words<B = Vec<u8>>(B);

impl Words {
    /// The canonical words of the message of the frame at the front of a slice, which
    /// [`canonical_words`](crate::canonical_words) returns as bytes.
    ///
    /// # Errors
    ///
    /// Those of [`canonical_copy`](crate::canonical_copy).
    pub fn of(frame: impl AsRef<[u8]>, limits: Limits) -> Result<Words, Error> {
        crate::canonical_words(frame, limits).map(Words)
    }

    /// The canonical words of the part of the message at the end of a path, like
    /// [`canonical_words_at`](crate::canonical_words_at).
    ///
    /// # Errors
    ///
    /// Those of [`canonical_words_at`](crate::canonical_words_at).
    pub fn of_part(frame: impl AsRef<[u8]>, path: &[u32], limits: Limits) -> Result<Words, Error> {
        crate::canonical_words_at(frame, path, limits).map(Words)
    }

    /// The canonical words of the message of these segments.
    ///
    /// # Errors
    ///
    /// Refused if a segment isn't whole words; otherwise those of [`canonical_copy`](crate::canonical_copy).
    pub fn of_segments<S: Segments + ?Sized>(segments: &S, limits: Limits) -> Result<Words, Error> {
        segments::canonical_words(segments, limits).map(Words)
    }
}

impl<B> Words<B> {
    /// The bytes themselves.
    pub fn into_bytes(self) -> B {
        self.0
    }
}

/// The errors are those of the calls of the crate with the same names, and
/// [`Error::SEGMENT_IS_NOT_WHOLE_WORDS`].
impl<B: AsRef<[u8]>> Words<B> {
    /// Bytes that you know to be raw words, because they were stored as such. They aren't looked at: [`check`](Words::check)
    /// tells whether they are canonical.
    pub fn from_bytes(words: B) -> Words<B> {
        Words(words)
    }

    /// The bytes to hash, sign or store.
    #[must_use]
    pub fn as_bytes(&self) -> &[u8] {
        self.0.as_ref()
    }

    /// The same words, borrowed.
    #[must_use]
    pub fn borrowed(&self) -> Words<&[u8]> {
        Words(self.as_bytes())
    }

    /// The canonical words of the value.
    ///
    /// # Errors
    ///
    /// Those of [`canonical_copy`](crate::canonical_copy).
    pub fn canonical(&self, limits: Limits) -> Result<Words, Error> {
        words::canonical_words(self.as_bytes(), limits).map(Words)
    }

    /// The canonical words of the part of the value at the end of a path.
    ///
    /// # Errors
    ///
    /// Those of [`canonical_words_at`](crate::canonical_words_at).
    pub fn canonical_at(&self, path: &[u32], limits: Limits) -> Result<Words, Error> {
        words::canonical_words_at(self.as_bytes(), path, limits).map(Words)
    }

    /// The SHA-256 of the canonical words of the value.
    ///
    /// # Errors
    ///
    /// Those of [`canonical_copy`](crate::canonical_copy).
    pub fn digest(&self, limits: Limits) -> Result<[u8; 32], Error> {
        words::digest(self.as_bytes(), limits)
    }

    /// The SHA-256 of `prefix` and then the canonical words of the value.
    ///
    /// # Errors
    ///
    /// Those of [`canonical_copy`](crate::canonical_copy).
    pub fn digest_with(&self, prefix: impl AsRef<[u8]>, limits: Limits) -> Result<[u8; 32], Error> {
        words::digest_with(prefix, self.as_bytes(), limits)
    }

    /// The SHA-256 of the canonical words of the part of the value at the end of a path.
    ///
    /// # Errors
    ///
    /// Those of [`canonical_words_at`](crate::canonical_words_at).
    pub fn digest_at(&self, path: &[u32], limits: Limits) -> Result<[u8; 32], Error> {
        words::digest_at(self.as_bytes(), path, limits)
    }

    /// Says why and where the words aren't canonical; `None` if they are.
    ///
    /// # Errors
    ///
    /// Those of [`check`](crate::check).
    pub fn check(&self, limits: Limits) -> Result<Option<Fault>, Error> {
        words::check(self.as_bytes(), limits)
    }

    /// Whether the words are canonical. Also false if they can't be read.
    #[must_use]
    pub fn is_canonical(&self, limits: Limits) -> bool {
        words::is_canonical(self.as_bytes(), limits)
    }

    /// The size of the value.
    ///
    /// # Errors
    ///
    /// Those of [`size`](crate::size).
    pub fn size(&self, limits: Limits) -> Result<Size, Error> {
        words::size(self.as_bytes(), limits)
    }

    /// The size of the part of the value at the end of a path.
    ///
    /// # Errors
    ///
    /// Those of [`size_at`](crate::size_at).
    pub fn size_at(&self, path: &[u32], limits: Limits) -> Result<Size, Error> {
        words::size_at(self.as_bytes(), path, limits)
    }

    /// Refuses the words unless they are sound.
    ///
    /// # Errors
    ///
    /// Those of [`validate`](crate::validate).
    pub fn validate(&self, limits: Limits) -> Result<Extent, Error> {
        words::validate(self.as_bytes(), limits)
    }

    /// The pointer at which the words are broken.
    ///
    /// # Errors
    ///
    /// Refused only if they aren't whole words.
    pub fn locate(&self, reading: Reading, limits: Limits) -> Result<Option<Broken>, Error> {
        words::locate(self.as_bytes(), reading, limits)
    }

    /// The structs, lists and capabilities of the value, at most `most` of them.
    ///
    /// # Errors
    ///
    /// Those of [`walk`](crate::walk).
    pub fn walk(&self, most: usize, limits: Limits) -> Result<Walk, Error> {
        words::walk(self.as_bytes(), most, limits)
    }
}
