//! The frames of a stream that is read as it comes.
use crate::incoming::{read_some, Came, Incoming};
use crate::{looks_like, Error, Frame};
use std::io::{self, Read};

/// The frames of a stream that is read as it comes, such as a socket or a file. Reads no byte after the frame that it
/// returns, and makes room for at most as many bytes as have come, or for 256 KiB.
///
/// ```
/// # let stream: &[u8] = &[0, 0, 0, 0, 1, 0, 0, 0, 0, 0, 0, 0, 0, 0, 0, 0];
/// use capnp_canonical::{canonical_words, FrameReader, Limits};
///
/// let limits = Limits::default();
/// let mut frames = FrameReader::new(stream, limits.words);
/// while let Some(frame) = frames.next_frame()? {
///     let words = canonical_words(&frame, limits).map_err(|error| frame.refused(error))?;
///     // ..
/// #   assert_eq!(words, [0; 8]);
/// }
/// # Ok::<(), std::io::Error>(())
/// ```
#[derive(Debug)]
pub struct FrameReader<R> {
    reader: R,
    incoming: Incoming,
}

impl<R: Read> FrameReader<R> {
    /// A reader of frames of at most `words` words each.
    pub fn new(reader: R, words: u64) -> Self {
        FrameReader {
            reader,
            incoming: Incoming::new(words),
        }
    }

    /// The next frame; `None` at the end of the stream, and after an error.
    ///
    /// # Errors
    ///
    /// A refusal of the frame, with a [`StreamError`](crate::StreamError) inside; or the error of the reader, which then isn't
    /// at the start of a frame any more.
    ///
    /// # Panics
    ///
    /// If the reader says that it read more bytes than it had room for.
    pub fn next_frame(&mut self) -> io::Result<Option<Frame<'_>>> {
        let reader = &mut self.reader;
        match self.incoming.next(|to| read_some(reader, to))? {
            Came::Whole(size) => Ok(Some(self.incoming.frame(size))),
            Came::Part(0) | Came::Nothing => Ok(None),
            Came::Part(held) => Err(self.refused(Error::TRUNCATED, held)),
            Came::Refused(held, error) => Err(self.refused(error, held)),
        }
    }

    /// The reader that the stream comes from.
    pub fn into_inner(self) -> R {
        self.reader
    }

    /// The error for a frame that has sent `held` bytes so far.
    fn refused(&mut self, error: Error, held: usize) -> io::Error {
        let mut error = self.incoming.refused(error);
        error.looks_like = looks_like(self.incoming.prefix(held));
        error.into()
    }
}
