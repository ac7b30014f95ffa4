//! The frames of a stream, and errors that say where in the stream they are.
use crate::{frame_size, looks_like, Error};
use core::fmt;
use core::iter::FusedIterator;
use core::ops::Deref;

/// The frames of a stream, in order, each of at most `words` words.
pub fn frames(stream: &[u8], words: u64) -> Frames<'_> {
    Frames {
        rest: stream,
        words,
        message: 0,
        byte: 0,
    }
}

/// An iterator over the frames of a stream. It gives an error if the remaining bytes don't start with a frame, and ends
/// after it.
#[derive(Clone, Debug)]
pub struct Frames<'a> {
    rest: &'a [u8],
    words: u64,
    message: u64,
    byte: u64,
}

impl<'a> Iterator for Frames<'a> {
    type Item = Result<Frame<'a>, StreamError>;

    fn next(&mut self) -> Option<Self::Item> {
        let stream = core::mem::take(&mut self.rest);
        if stream.is_empty() {
            return None;
        }
        self.message += 1;
        let size = match frame_size(stream, self.words) {
            Ok(size) => size,
            Err(error) => {
                let mut error = error.at(self.message, self.byte);
                error.looks_like = looks_like(stream);
                return Some(Err(error));
            }
        };
        let (bytes, rest) = stream.split_at(size);
        let frame = Frame {
            bytes,
            message: self.message,
            byte: self.byte,
        };
        self.rest = rest;
        self.byte += size as u64;
        Some(Ok(frame))
    }
}

impl FusedIterator for Frames<'_> {}

/// A frame of a stream: its bytes and its place.
#[derive(Clone, Copy, Debug, PartialEq, Eq)]
#[non_exhaustive]
pub struct Frame<'a> {
    /// The bytes of the frame.
    pub bytes: &'a [u8],
    /// Its number in the stream, counted from 1.
    pub message: u64,
    /// The byte of the stream where it starts.
    pub byte: u64,
}

impl Frame<'_> {
    /// Adds the place of this frame to an error about its message:
    /// `canonical_words(&frame, limits).map_err(|error| frame.refused(error))`.
    pub fn refused(&self, error: Error) -> StreamError {
        error.at(self.message, self.byte)
    }
}

impl Deref for Frame<'_> {
    type Target = [u8];

    fn deref(&self) -> &[u8] {
        self.bytes
    }
}

impl AsRef<[u8]> for Frame<'_> {
    fn as_ref(&self) -> &[u8] {
        self.bytes
    }
}

/// Which message of a stream is refused, and why. `{}` writes a sentence, such as
/// `message 2 at byte 40: Truncated: the bytes end inside a frame or a packed word`.
#[derive(Clone, Copy, Debug, PartialEq, Eq, Hash)]
#[non_exhaustive]
pub struct StreamError {
    /// Why.
    pub error: Error,
    /// The number of the message in the stream, counted from 1.
    pub message: u64,
    /// The byte of the stream where its frame starts.
    pub byte: u64,
    /// If the bytes aren't a frame, a guess at what they look like, such as `gzip`; `None` if there is no guess.
    pub looks_like: Option<&'static str>,
}

impl Error {
    /// The same error for a message at this place of a stream.
    pub fn at(self, message: u64, byte: u64) -> StreamError {
        StreamError {
            error: self,
            message,
            byte,
            looks_like: None,
        }
    }
}

impl From<StreamError> for Error {
    fn from(error: StreamError) -> Self {
        error.error
    }
}

impl fmt::Display for StreamError {
    fn fmt(&self, f: &mut fmt::Formatter<'_>) -> fmt::Result {
        let StreamError {
            error,
            message,
            byte,
            ..
        } = self;
        write!(f, "message {message} at byte {byte}: {error}")?;
        match self.looks_like {
            Some(like) => write!(f, "; they look like {like}"),
            None => Ok(()),
        }
    }
}

impl core::error::Error for StreamError {}

/// The kind is that of its `error`; the text is the whole sentence.
#[cfg(feature = "std")]
impl From<StreamError> for std::io::Error {
    fn from(error: StreamError) -> Self {
        std::io::Error::new(std::io::Error::from(error.error).kind(), error)
    }
}
