//! The parts of a line of JSON that a value determines.

use super::objects::{bytes_are_below_256, bytes_at, number_at};
use super::text::{as_text, Ended, Text};
use crate::proved::capnp_pointers::object::Place;
use crate::proved::capnp_words::wire_pointer::{ElementSize, StructSize};

impl Text {
    /// Adds what comes before piece `index` of an array: a comma, if it isn't the first one.
    pub(super) fn push_comma_unless_first(&mut self, index: u32) -> Result<(), Ended> {
        if index == 0 {
            return Ok(());
        }
        self.push(b",")
    }

    /// Adds what begins the array of what the pointers of a list lead to, or those of a struct.
    pub(super) fn push_array_start(&mut self, are_elements: bool) -> Result<(), Ended> {
        if are_elements {
            return self.push(b"\"list\":[");
        }
        self.push(b"\"pointers\":[")
    }

    /// Adds the array of `count` pointers if none may be followed, and ends the object.
    pub(super) fn push_unfollowed_pointers(
        &mut self,
        are_elements: bool,
        count: u32,
    ) -> Result<(), Ended> {
        if count > 0 {
            return self.push(b"\"cut\":\"depth\"}");
        }
        self.push_array_start(are_elements)?;
        self.push(b"]}")
    }

    /// Adds a key, which has what comes before it, and a number.
    pub(super) fn push_keyed(&mut self, key: &[u8], n: u64) -> Result<(), Ended> {
        self.push(key)?;
        self.push_number(n)
    }

    /// Adds a key and a number, which end an object.
    fn push_last_number(&mut self, key: &[u8], n: u64) -> Result<(), Ended> {
        self.push(key)?;
        self.push_number(n)?;
        self.push(b"}")
    }

    /// Adds the rest of the object of a capability.
    pub(super) fn push_capability(&mut self, index: u32) -> Result<(), Ended> {
        self.push_last_number(b"\"capability\":", u64::from(index))
    }

    /// Adds why a pointer can't be read, and ends the object.
    pub(super) fn push_refusal(&mut self, name: &[u8]) -> Result<(), Ended> {
        self.push(b"\"refused\":\"")?;
        self.push(name)?;
        self.push(b"\"}")
    }

    /// Adds the bytes of a data section in hex digits.
    pub(super) fn push_data_member(&mut self, bytes: &[u8]) -> Result<(), Ended> {
        self.push(b"\"data\":\"")?;
        self.push_hex(bytes)?;
        self.push(b"\",")
    }

    /// Adds the rest of the object of a list of bits or numbers.
    ///
    /// # Preconditions
    ///
    /// ```text
    /// requires at_hand { IsAtHand (ObjectFlat start size count) }
    /// requires small { length start.bytes.now < 8 * 2 ^ 32 }
    /// ```
    pub(super) fn push_primitive_list(
        &mut self,
        start: Place,
        size: ElementSize,
        count: u32,
    ) -> Result<(), Ended> {
        bytes_are_below_256(start.bytes);
        match size {
            ElementSize::Void => self.push_last_number(b"\"void\":", u64::from(count)),
            ElementSize::Byte => self.push_bytes_member(bytes_at(start, count as usize)),
            _ => self.push_numbers_member(start, size, count),
        }
    }

    /// Adds the rest of the object of a list of bytes: as text if they read as text, and otherwise
    /// in hex digits.
    fn push_bytes_member(&mut self, bytes: &[u8]) -> Result<(), Ended> {
        match as_text(bytes) {
            Some(text) => self.push_text_member(text.as_bytes()),
            None => self.push_hex_member(bytes),
        }
    }

    /// Adds the rest of the object of a list of bytes that reads as this text.
    fn push_text_member(&mut self, text: &[u8]) -> Result<(), Ended> {
        self.push(b"\"text\":")?;
        self.push_quoted(text)?;
        self.push(b"}")
    }

    /// Adds the rest of the object of a list of bytes that doesn't read as text.
    fn push_hex_member(&mut self, bytes: &[u8]) -> Result<(), Ended> {
        self.push(b"\"bytes\":\"")?;
        self.push_hex(bytes)?;
        self.push(b"\"}")
    }

    /// Adds the rest of the object of a list of bits, or of numbers of two, four or eight bytes.
    ///
    /// # Preconditions
    ///
    /// ```text
    /// requires at_hand { IsAtHand (ObjectFlat start size count) }
    /// requires small { length start.bytes.now < 8 * 2 ^ 32 }
    /// requires some { size ≢ ElementSize.Void }
    /// requires bytes { (i : ℕ) → slice_index start.bytes.now i < 256 }
    /// ```
    fn push_numbers_member(
        &mut self,
        start: Place,
        size: ElementSize,
        count: u32,
    ) -> Result<(), Ended> {
        self.push(numbers_key(size))?;
        self.push_each_number(start, size, count)?;
        self.push(b"]}")
    }

    /// Adds the elements of a list of bits or numbers, with commas between them.
    ///
    /// # Preconditions
    ///
    /// ```text
    /// requires at_hand { IsAtHand (ObjectFlat start size count) }
    /// requires small { length start.bytes.now < 8 * 2 ^ 32 }
    /// requires some { size ≢ ElementSize.Void }
    /// requires bytes { (i : ℕ) → slice_index start.bytes.now i < 256 }
    /// ```
    fn push_each_number(
        &mut self,
        start: Place,
        size: ElementSize,
        count: u32,
    ) -> Result<(), Ended> {
        for i in 0..count {
            self.push_comma_unless_first(i)?;
            self.push_element(size, number_at(start, size, i))?;
        }
        Ok(())
    }

    /// Adds an element of a list of bits or numbers of this size. Numbers of eight bytes are in
    /// quotes, since many readers of JSON round larger numbers.
    fn push_element(&mut self, size: ElementSize, n: u64) -> Result<(), Ended> {
        match size {
            ElementSize::Bit | ElementSize::TwoBytes | ElementSize::FourBytes => {
                self.push_number(n)
            }
            _ => self.push_quoted_number(n),
        }
    }

    /// Adds a number in quotes.
    fn push_quoted_number(&mut self, n: u64) -> Result<(), Ended> {
        self.push(b"\"")?;
        self.push_number(n)?;
        self.push(b"\"")
    }

    /// Adds the sizes of the elements of a list of structs.
    pub(super) fn push_sizes(&mut self, size: StructSize) -> Result<(), Ended> {
        self.push_keyed(b"\"data_words\":", u64::from(size.data_words))?;
        self.push_keyed(b",\"pointer_count\":", u64::from(size.pointers))?;
        self.push(b",")
    }

    /// Adds the rest of the object of a list of structs without words: only their number.
    pub(super) fn push_count(&mut self, count: u32) -> Result<(), Ended> {
        self.push_last_number(b"\"count\":", u64::from(count))
    }
}

/// What begins the array of the elements of a list of bits or numbers of this size.
fn numbers_key(size: ElementSize) -> &'static [u8] {
    match size {
        ElementSize::Bit => b"\"bits\":[",
        ElementSize::TwoBytes => b"\"u16\":[",
        ElementSize::FourBytes => b"\"u32\":[",
        _ => b"\"u64\":[",
    }
}
