//! Writes the output line, part by part.

use capnp_proved::capnp_words::wire_pointer::{ElementSize, PointerType, StructSize};
use std::fmt::Display;
use test_support::encode_hex;

/// A line so far.
#[derive(Default)]
pub struct Output {
    text: String,
}

impl Output {
    /// An empty line.
    pub fn new() -> Self {
        Output::default()
    }

    /// Returns the line.
    pub fn into_text(self) -> String {
        self.text
    }

    /// Adds a text.
    pub fn push_text(&mut self, text: &str) {
        self.text.push_str(text);
    }

    /// Adds a number in decimal digits, or the name of a refusal, with its number if it has one.
    pub fn push(&mut self, value: impl Display) {
        self.push_text(&value.to_string());
    }

    /// Adds a space and a number.
    pub fn push_spaced(&mut self, value: impl Display) {
        self.push_text(" ");
        self.push(value);
    }

    /// Adds a `/` and a number.
    pub fn push_slashed(&mut self, value: impl Display) {
        self.push_text("/");
        self.push(value);
    }

    /// Adds 1 for yes, 0 for no.
    pub fn push_flag(&mut self, yes: bool) {
        self.push_text(if yes { "1" } else { "0" });
    }

    /// Adds the number of words that a limiter has left, or `none` if it has no limit.
    pub fn push_words_left(&mut self, words: Option<usize>) {
        match words {
            Some(words) => self.push(words),
            None => self.push_text("none"),
        }
    }

    /// Adds bytes as hex digits.
    pub fn push_hex(&mut self, bytes: &[u8]) {
        self.push_text(&encode_hex(bytes));
    }

    /// Adds bytes as hex digits, `-` for none.
    pub fn push_hex_or_dash(&mut self, bytes: &[u8]) {
        if bytes.is_empty() {
            self.push_text("-");
        } else {
            self.push_hex(bytes);
        }
    }

    /// Adds the element size as a number.
    pub fn push_element_size(&mut self, size: ElementSize) {
        self.push_text(match size {
            ElementSize::Void => "0",
            ElementSize::Bit => "1",
            ElementSize::Byte => "2",
            ElementSize::TwoBytes => "3",
            ElementSize::FourBytes => "4",
            ElementSize::EightBytes => "5",
            ElementSize::Pointer => "6",
            ElementSize::InlineComposite => "7",
        });
    }

    /// Adds the element size of a list, and the words of data and the pointers of its structs, each
    /// number after a `/`.
    pub fn push_list_sizes(&mut self, size: ElementSize, structs: StructSize) {
        self.push_text("/");
        self.push_element_size(size);
        self.push_slashed(structs.data_words);
        self.push_slashed(structs.pointers);
    }

    /// Adds a letter for the kind of object that a pointer leads to, or `n` for a null pointer.
    pub fn push_pointer_type(&mut self, found: PointerType) {
        self.push_text(match found {
            PointerType::Null => "n",
            PointerType::Struct => "s",
            PointerType::List => "l",
            PointerType::Capability => "c",
        });
    }
}
