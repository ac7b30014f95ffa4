//! The frame of a stream whose bytes come piece by piece.
use crate::{frame_size_from_prefix, Error, Frame, StreamError};
use alloc::vec::Vec;
use std::io::{self, ErrorKind, Read};

/// The size in bytes of the smallest segment table.
const SMALLEST: usize = 8;
/// The room that is made before any byte has come.
const PIECE: usize = 1 << 18;

/// What came of a frame.
pub(crate) enum Came {
    /// All of it: this many bytes.
    Whole(usize),
    /// This many bytes, and then the end of the stream.
    Part(usize),
    /// This many bytes, which tell that it is refused.
    Refused(usize, Error),
    /// Nothing, because an error came before.
    Nothing,
}

/// The frame that a reader of a stream holds, and where in the stream it is. Makes room for at most as many bytes as
/// have come, or for 256 KiB.
#[derive(Debug)]
pub(crate) struct Incoming {
    words: u64,
    buffer: Vec<u8>,
    message: u64,
    byte: u64,
    /// Whether a frame was refused, or couldn't be read.
    has_failed: bool,
}

impl Incoming {
    /// The start of a stream of frames of at most `words` words each.
    pub(crate) fn new(words: u64) -> Self {
        Incoming {
            words,
            buffer: Vec::new(),
            message: 0,
            byte: 0,
            has_failed: false,
        }
    }

    /// Reads the next frame, or nothing after an error. `read` works like `Read::read`: it writes bytes to the front of
    /// a slice, and returns how many; 0 only at the end of the stream. It never gets more room than the frame has bytes left.
    pub(crate) fn next(
        &mut self,
        read: impl FnMut(&mut [u8]) -> io::Result<usize>,
    ) -> io::Result<Came> {
        if self.has_failed {
            return Ok(Came::Nothing);
        }
        let came = self.read_next(read);
        self.has_failed = came.is_err();
        came
    }

    fn read_next(
        &mut self,
        mut read: impl FnMut(&mut [u8]) -> io::Result<usize>,
    ) -> io::Result<Came> {
        self.message += 1;
        let (mut held, mut wanted) = (0, SMALLEST);
        while held < wanted {
            let room = wanted.min(held + held.max(PIECE));
            if self.buffer.len() < room {
                self.buffer.resize(room, 0);
            }
            let came = read(&mut self.buffer[held..room])?;
            if came == 0 {
                return Ok(Came::Part(held));
            }
            held += came;
            if held == wanted {
                match frame_size_from_prefix(&self.buffer[..held], self.words) {
                    Ok(size) => wanted = size,
                    Err(error) => return Ok(Came::Refused(held, error)),
                }
            }
        }
        Ok(Came::Whole(held))
    }

    /// The frame of `size` bytes that has come. The next one starts after it.
    pub(crate) fn frame(&mut self, size: usize) -> Frame<'_> {
        let byte = self.byte;
        self.byte += size as u64;
        Frame {
            bytes: &self.buffer[..size],
            message: self.message,
            byte,
        }
    }

    /// The first `held` bytes of the frame.
    pub(crate) fn prefix(&self, held: usize) -> &[u8] {
        &self.buffer[..held]
    }

    /// The error of the frame. Nothing is read after it.
    pub(crate) fn refused(&mut self, error: Error) -> StreamError {
        self.has_failed = true;
        error.at(self.message, self.byte)
    }
}

/// Reads like `Read::read`, and again if it was interrupted. Panics if the reader says that it read more bytes than it had
/// room for.
pub(crate) fn read_some(reader: &mut impl Read, to: &mut [u8]) -> io::Result<usize> {
    loop {
        match reader.read(to) {
            Err(error) if error.kind() == ErrorKind::Interrupted => {}
            Ok(came) => {
                assert!(
                    came <= to.len(),
                    "a reader returned more bytes than it had room for"
                );
                return Ok(came);
            }
            refused => return refused,
        }
    }
}
