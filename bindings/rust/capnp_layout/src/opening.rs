//! Opens messages: from frames, words, segments, packed bytes and readers.

use crate::error::{Error, Reason};
use crate::message::{Limits, Message};
use crate::proved::capnp_arena::arena::{ReaderSegments, SegmentArray};
use crate::proved::capnp_framing::devices::{DeviceFault, Input, MemoryInput};
use crate::proved::capnp_framing::framing::{most_words, read_from_flat_slice, FrameError};
use crate::proved::capnp_packing::packing::UnpackingInput;
use crate::proved::capnp_words::error::ErrorKind;
use crate::proved::support::alloc::Global;
use crate::proved::typed_messages::serialize;
use crate::segments::Held;

/// The bytes of a table of one segment.
const TABLE: usize = 8;

impl<'a> Message<'a> {
    /// Opens a frame that `capnp encode` or `writeMessage` has written, in place: copies nothing,
    /// and takes no memory.
    ///
    /// Refuses with [`Reason::Frame`] what isn't a frame, a frame of more than 512 segments, and
    /// one of more words than `limits` has. Refuses bytes after the frame with
    /// [`Reason::TrailingBytes`].
    pub fn open(bytes: &'a [u8], limits: Limits) -> Result<Self, Error> {
        let (message, rest) = Message::open_first(bytes, limits)?;
        match rest.len() {
            0 => Ok(message),
            more => Err(Reason::TrailingBytes(more).into()),
        }
    }

    /// Opens the first frame of `bytes`, like [`open`](Message::open), and returns it with the
    /// bytes after it.
    ///
    /// ```
    /// # use capnp_layout::{Builder, Limits, Message, StructSize};
    /// # let mut bytes = Vec::new();
    /// # for n in 1..=3u64 {
    /// #     let mut built = Builder::new();
    /// #     built.init_root(StructSize { data_words: 1, pointers: 0 }).set_u64(0, n);
    /// #     bytes.extend(built.to_frame()?);
    /// # }
    /// let (mut rest, mut sum) = (&bytes[..], 0);
    /// while !rest.is_empty() {
    ///     let (message, after) = Message::open_first(rest, Limits::default())?;
    ///     sum += message.sound()?.get_u64(0);
    ///     rest = after;
    /// }
    /// # assert_eq!(sum, 6);
    /// # Ok::<(), capnp_layout::Error>(())
    /// ```
    pub fn open_first(bytes: &'a [u8], limits: Limits) -> Result<(Self, &'a [u8]), Error> {
        let Some(segments) = read_from_flat_slice(bytes, most_words(limits.options()))? else {
            return Err(FrameError::Truncated.into());
        };
        let size = segments.size_in_bytes();
        let held = if segments.len() == 1 {
            Held::One(&bytes[TABLE..size])
        } else {
            Held::Frame(segments)
        };
        Ok((Message::new(held, limits), &bytes[size..]))
    }

    /// Opens the words of a message of one segment, without a frame, in place.
    ///
    /// Refuses with [`Reason::SegmentIsNotWholeWords`], or with `MessageTooLarge` if there are 2^32
    /// words or more.
    pub fn from_words(words: &'a [u8], limits: Limits) -> Result<Self, Error> {
        check_segment(words)?;
        Ok(Message::new(Held::One(words), limits))
    }

    /// Opens segments in place. Refuses like [`from_words`](Message::from_words).
    pub fn from_segments(segments: &'a [&'a [u8]], limits: Limits) -> Result<Self, Error> {
        for segment in segments {
            check_segment(segment)?;
        }
        match SegmentArray::new(segments) {
            Some(segments) => Ok(Message::new(Held::Borrowed(segments), limits)),
            None => Err(FrameError::TooManySegments(segments.len() as u64).into()),
        }
    }
}

/// Whether a segment can be one: whole words, and fewer than 2^32.
fn check_segment(bytes: &[u8]) -> Result<(), Error> {
    if !bytes.len().is_multiple_of(8) {
        return Err(Reason::SegmentIsNotWholeWords.into());
    }
    match u32::try_from(bytes.len() / 8) {
        Ok(_) => Ok(()),
        Err(_) => Err(ErrorKind::MessageTooLarge(bytes.len() / 8).into()),
    }
}

impl Message<'static> {
    fn read_from<R: Input>(input: &mut R, limits: Limits) -> Result<Self, Error> {
        let read = serialize::read_message(Global, input, limits.options())?;
        Ok(Message::new(Held::Owned(read.into_segments()), limits))
    }

    /// Copies a frame. Refuses like [`open`](Message::open).
    pub fn copy(bytes: &[u8], limits: Limits) -> Result<Self, Error> {
        let mut input = MemoryInput::new(bytes);
        let message = Message::read_from(&mut input, limits)?;
        check_end(&mut input)?;
        Ok(message)
    }

    /// Unpacks a packed frame that `capnp encode --packed` has written. The memory taken grows with
    /// the bytes that arrive. Refuses like [`open`](Message::open), and with `Truncated` packed
    /// bytes that end within a word.
    pub fn open_packed(packed: &[u8], limits: Limits) -> Result<Self, Error> {
        let mut input = UnpackingInput::new(MemoryInput::new(packed));
        let message = Message::read_from(&mut input, limits)?;
        check_end(&mut input)?;
        match input.is_whole_at_end() {
            Ok(true) => Ok(message),
            _ => Err(FrameError::Truncated.into()),
        }
    }

    /// Reads one frame from a reader, and nothing after it. Reads again if a read was interrupted;
    /// any other error of the reader is the [`source`](core::error::Error::source) of the
    /// refusal `ReadFailed`. If there is nothing to read, refuses with `Truncated`.
    #[cfg(feature = "std")]
    pub fn read(reader: impl std::io::Read, limits: Limits) -> Result<Self, Error> {
        let mut input = PlainInput {
            reader,
            failed: None,
        };
        match (Message::read_from(&mut input, limits), input.failed) {
            (Err(error), Some(cause)) => Err(error.caused_by(cause)),
            (made, _) => made,
        }
    }
}

/// Refuses what follows a message.
fn check_end<R: Input>(input: &mut R) -> Result<(), Error> {
    let mut more = [0; 512];
    match input.read(&mut more) {
        Ok(0) => Ok(()),
        Ok(n) => Err(Reason::TrailingBytes(n).into()),
        Err(DeviceFault) => Err(FrameError::ReadFailed.into()),
    }
}

/// A reader that keeps its error, and tries again when it was interrupted.
#[cfg(feature = "std")]
struct PlainInput<R> {
    reader: R,
    failed: Option<std::io::Error>,
}

#[cfg(feature = "std")]
impl<R: std::io::Read> Input for PlainInput<R> {
    fn read(&mut self, to: &mut [u8]) -> Result<usize, DeviceFault> {
        while self.failed.is_none() {
            match self.reader.read(to) {
                // a reader that claims more than it can have read
                Ok(n) => return Ok(n.min(to.len())),
                Err(error) if error.kind() == std::io::ErrorKind::Interrupted => {}
                Err(error) => self.failed = Some(error),
            }
        }
        Err(DeviceFault)
    }

    fn failed(&self) -> bool {
        self.failed.is_some()
    }
}
