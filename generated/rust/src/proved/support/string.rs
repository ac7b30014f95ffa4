//! Texts whose calls are refused if memory runs out.

use super::alloc::{AllocError, Global};
use super::rust_alloc::string;
use core::fmt;
use core::ops::Deref;

/// A text; Rust's `String`, with calls that can fail.
#[derive(Debug, PartialEq, Eq)]
pub struct String(string::String);

impl String {
    pub const fn new(_alloc: Global) -> Self {
        String(string::String::new())
    }

    #[allow(clippy::should_implement_trait)]
    pub fn from_str(alloc: Global, text: &str) -> Result<Self, AllocError> {
        let mut made = String::new(alloc);
        made.push_str(text)?;
        Ok(made)
    }

    /// A copy. Rust's `Clone` has no way to fail, so this isn't it.
    #[allow(clippy::should_implement_trait)]
    pub fn clone(&self) -> Result<Self, AllocError> {
        String::from_str(Global, &self.0)
    }

    pub fn push_str(&mut self, text: &str) -> Result<(), AllocError> {
        self.0.try_reserve(text.len()).map_err(|_| AllocError)?;
        self.0.push_str(text);
        Ok(())
    }

    pub fn push(&mut self, letter: char) -> Result<(), AllocError> {
        self.push_str(letter.encode_utf8(&mut [0; 4]))
    }

    pub fn as_str(&self) -> &str {
        &self.0
    }

    pub fn pop(&mut self) -> Option<char> {
        self.0.pop()
    }

    pub fn truncate(&mut self, n: usize) {
        self.0.truncate(n);
    }

    pub fn write_fmt(&mut self, parts: fmt::Arguments<'_>) -> Result<(), AllocError> {
        fmt::Write::write_fmt(&mut Fallible(self), parts).map_err(|_| AllocError)
    }
}

/// Writes to a text, with the error of `fmt`.
struct Fallible<'a>(&'a mut String);

impl fmt::Write for Fallible<'_> {
    fn write_str(&mut self, text: &str) -> fmt::Result {
        self.0.push_str(text).map_err(|_| fmt::Error)
    }
}

impl From<string::String> for String {
    fn from(text: string::String) -> Self {
        String(text)
    }
}

impl Deref for String {
    type Target = str;

    fn deref(&self) -> &str {
        &self.0
    }
}

impl fmt::Display for String {
    fn fmt(&self, f: &mut fmt::Formatter<'_>) -> fmt::Result {
        f.write_str(&self.0)
    }
}
