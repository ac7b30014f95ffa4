//! The frames of a packed stream that is read as it comes.
use crate::incoming::{read_some, Came, Incoming};
use crate::{Error, Frame};
use alloc::vec::Vec;
use capnp_layout::proved::capnp_packing::packing::{unpack_piece, Place};
use std::io::{self, Read};

/// The most packed bytes that are read ahead.
const AHEAD: usize = 1 << 16;

/// The frames of a packed stream that is read as it comes, such as `capnp::serialize_packed::write_message` writes to a
/// socket or a file. Reads up to 64 KiB ahead, and keeps them for the next frames. Makes room for at most twice the
/// unpacked bytes that have come, or for 256 KiB.
///
/// ```
/// # let stream: &[u8] = &[0x10, 2, 0x10, 1, 1, 42];
/// use capnp_canonical::{canonical_words, Limits, PackedFrameReader};
///
/// let limits = Limits::default();
/// let mut frames = PackedFrameReader::new(stream, limits.words);
/// while let Some(frame) = frames.next_frame()? {
///     let words = canonical_words(&frame, limits).map_err(|error| frame.refused(error))?;
///     // ..
/// #   assert_eq!(words, [0, 0, 0, 0, 1, 0, 0, 0, 42, 0, 0, 0, 0, 0, 0, 0]);
/// }
/// # Ok::<(), std::io::Error>(())
/// ```
#[derive(Debug)]
pub struct PackedFrameReader<R> {
    stream: Unpacked<R>,
    incoming: Incoming,
}

/// The bytes that a packed stream stands for.
#[derive(Debug)]
struct Unpacked<R> {
    reader: R,
    // How far it is unpacked: the zero bytes that are due, and the place of the next packed byte.
    zeros: u16,
    place: Place,
    // The packed bytes that were read and not yet unpacked are from `first` to `end`.
    packed: Vec<u8>,
    first: usize,
    end: usize,
    packed_bytes: u64,
}

impl<R: Read> PackedFrameReader<R> {
    /// A reader of frames of at most `words` words each.
    pub fn new(reader: R, words: u64) -> Self {
        PackedFrameReader {
            stream: Unpacked {
                reader,
                zeros: 0,
                place: Place::Tag,
                packed: Vec::new(),
                first: 0,
                end: 0,
                packed_bytes: 0,
            },
            incoming: Incoming::new(words),
        }
    }

    /// The next frame, unpacked; `None` at the end of the stream, and after an error.
    ///
    /// # Errors
    ///
    /// A refusal of the frame, with a [`StreamError`](crate::StreamError) inside, which is [`Error::TRUNCATED`] also if the
    /// stream ends before the count after a word; or the error of the reader. After either, the reader isn't at the start of
    /// a frame any more.
    ///
    /// # Panics
    ///
    /// If the reader says that it read more bytes than it had room for.
    pub fn next_frame(&mut self) -> io::Result<Option<Frame<'_>>> {
        let stream = &mut self.stream;
        match self.incoming.next(|to| stream.read(to))? {
            Came::Whole(size) => Ok(Some(self.incoming.frame(size))),
            Came::Part(0) if self.stream.is_whole() => Ok(None),
            Came::Nothing => Ok(None),
            Came::Part(_) => Err(self.incoming.refused(Error::TRUNCATED).into()),
            Came::Refused(_, error) => Err(self.incoming.refused(error).into()),
        }
    }

    /// The number of packed bytes that the frames so far took.
    pub fn packed_bytes(&self) -> u64 {
        self.stream.packed_bytes
    }

    /// The reader that the stream comes from. Packed bytes that were read ahead are lost.
    pub fn into_inner(self) -> R {
        self.stream.reader
    }
}

impl<R: Read> Unpacked<R> {
    /// Unpacks bytes to the front of `to`, which isn't empty, and returns how many; 0 only at the end of the stream.
    fn read(&mut self, to: &mut [u8]) -> io::Result<usize> {
        loop {
            let written = self.unpack(to);
            if written > 0 || !self.read_more()? {
                return Ok(written);
            }
        }
    }

    /// Unpacks packed bytes that were read to the front of `to`, until `to` is full or none are left. Returns the number
    /// of bytes written.
    fn unpack(&mut self, to: &mut [u8]) -> usize {
        let packed = &self.packed[self.first..self.end];
        let done = unpack_piece(self.zeros, self.place, packed, to);
        (self.zeros, self.place) = (done.zeros, done.place);
        self.first += done.taken;
        self.packed_bytes += done.taken as u64;
        done.given
    }

    /// Reads more packed bytes, over those that are unpacked. Returns whether some came.
    fn read_more(&mut self) -> io::Result<bool> {
        self.packed.resize(AHEAD, 0);
        (self.first, self.end) = (0, 0);
        self.end = read_some(&mut self.reader, &mut self.packed)?;
        Ok(self.end > 0)
    }

    /// Whether the packed bytes so far may be all.
    fn is_whole(&self) -> bool {
        self.zeros == 0 && self.place == Place::Tag
    }
}
