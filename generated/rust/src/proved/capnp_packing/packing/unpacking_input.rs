//! An input that unpacks the bytes of another input.

use super::place::{step, Place};
use super::read_ahead::ReadAhead;
use super::unpacking::{fill_with_zeros, place_after_raw, unpack_words, UNIT};
use crate::proved::capnp_framing::devices::{DeviceFault, Input};
use crate::proved::capnp_packing::buffered::BufferedInput;

/// Unpacks the bytes of a packed input. If the packed bytes end inside a word, the unpacked bytes
/// end there, too, without an error. Doesn't read from the packed input again after that has
/// failed.
pub struct UnpackingInput<R> {
    packed: ReadAhead<R>,
    place: Place,
    // The number of zero bytes to return before the next packed byte is read.
    zeros: u16,
    // Whether a read has reported that the packed input failed. Bytes from before the failure are
    // returned first.
    told: bool,
}

impl<R: Input> UnpackingInput<R> {
    /// Makes an input that unpacks the bytes of `packed`.
    pub fn new(packed: R) -> Self {
        UnpackingInput {
            packed: ReadAhead::new(packed),
            place: Place::Tag,
            zeros: 0,
            told: false,
        }
    }

    /// Tests whether the input has ended: returns `true` only if no unpacked byte is left, and the
    /// packed bytes aren't cut short. To find out, tries to read one unpacked byte. If there is
    /// one, no later read returns that byte.
    pub fn is_whole_at_end(&mut self) -> Result<bool, DeviceFault> {
        let n = self.unpack(&mut [0])?;
        Ok(n == 0 && self.is_whole())
    }

    /// Whether the packed bytes read so far end before a tag (not inside a word or before a count),
    /// and all bytes unpacked from them have been returned.
    pub fn is_whole(&self) -> bool {
        self.zeros == 0 && matches!(self.place, Place::Tag)
    }

    /// Reads at most `to.len()` unpacked bytes to the front of `to`, and returns their number: 0
    /// only if `to` is empty, or the packed bytes have ended.
    pub(super) fn unpack(&mut self, to: &mut [u8]) -> Result<usize, DeviceFault> {
        if self.packed.failed() {
            self.told = true;
            return Err(DeviceFault);
        }
        let mut given = 0;
        while given < to.len() {
            match self.unpack_some(&mut to[given..]) {
                Ok(0) => return Ok(given),
                Ok(n) => given += n,
                Err(DeviceFault) => {
                    self.told = given == 0;
                    return if self.told {
                        Err(DeviceFault)
                    } else {
                        Ok(given)
                    };
                }
            }
        }
        Ok(given)
    }

    /// Reads some unpacked bytes to the front of `to`, and returns their number: at least 1 unless
    /// the packed bytes have ended. Precondition: `to` isn't empty.
    ///
    /// # Preconditions
    ///
    /// ```text
    /// requires { 0 < length to.old }
    /// ```
    fn unpack_some(&mut self, to: &mut [u8]) -> Result<usize, DeviceFault> {
        while self.zeros == 0 {
            if let Place::Raw(left) = self.place {
                return self.read_raw(left, to);
            }
            if !self.packed.fill()? {
                return Ok(0);
            }
            if self.is_whole() && to.len() >= 8 && self.packed.buffer().len() >= UNIT {
                return Ok(self.unpack_ahead(to));
            }
            let taken = step(self.place, self.packed.next());
            self.place = taken.next;
            self.zeros = taken.zeros;
            if let Some(byte) = taken.byte {
                to[0] = byte;
                return Ok(1);
            }
        }
        Ok(self.write_due_zeros(to))
    }

    /// Unpacks words from the bytes read ahead to the front of `to`, and returns the number of
    /// unpacked bytes.
    ///
    /// # Preconditions
    ///
    /// ```text
    /// requires zeros { self.old.zeros ≡ 0 }
    /// requires place { self.old.place ≡ Place.Tag }
    /// requires ahead { 10 ≤ self.old.packed.end - self.old.packed.at }
    /// requires room { 8 ≤ length to.old }
    /// ```
    fn unpack_ahead(&mut self, to: &mut [u8]) -> usize {
        let progress = unpack_words(self.packed.buffer(), to);
        self.packed.consume(progress.taken);
        self.place = progress.place;
        self.zeros = progress.zeros;
        progress.given
    }

    /// Writes zero bytes that are already unpacked, but not returned yet, to the front of `to`.
    /// Returns the number of bytes written.
    ///
    /// # Preconditions
    ///
    /// ```text
    /// requires due { 0 < self.old.zeros }
    /// requires room { 0 < length to.old }
    /// ```
    fn write_due_zeros(&mut self, to: &mut [u8]) -> usize {
        let n = to.len().min(self.zeros as usize);
        fill_with_zeros(&mut to[..n]);
        self.zeros -= n as u16;
        n
    }

    /// Reads bytes of words that aren't packed, directly into `to`, and returns their number.
    /// Before the call, `left` + 1 bytes of these words are still to be read: the next one, and
    /// `left` after it.
    ///
    /// # Preconditions
    ///
    /// ```text
    /// requires place { self.old.place ≡ Place.Raw left }
    /// requires zeros { self.old.zeros ≡ 0 }
    /// requires room { 0 < length to.old }
    /// ```
    fn read_raw(&mut self, left: u16, to: &mut [u8]) -> Result<usize, DeviceFault> {
        let most = to.len().min(left as usize + 1);
        let n = self.packed.read(&mut to[..most])?;
        if n > 0 {
            self.place = place_after_raw(left, n);
        }
        Ok(n)
    }
}

impl<R: Input> Input for UnpackingInput<R> {
    fn read(&mut self, to: &mut [u8]) -> Result<usize, DeviceFault> {
        self.unpack(to)
    }

    fn failed(&self) -> bool {
        self.told && self.packed.failed()
    }
}

impl<R: Input> BufferedInput for UnpackingInput<R> {
    fn is_ahead(&self) -> bool {
        self.packed.buffer().len() >= UNIT
    }
}
