//! An error of any kind, for what the sources call the crate `anyhow`.


use std::fmt;

/// An error of any kind.
pub struct Error(Box<dyn std::error::Error>);

pub type Result<T, E = Error> = std::result::Result<T, E>;

impl fmt::Debug for Error {
    fn fmt(&self, f: &mut fmt::Formatter<'_>) -> fmt::Result {
        write!(f, "{}", self.0)
    }
}

impl fmt::Display for Error {
    fn fmt(&self, f: &mut fmt::Formatter<'_>) -> fmt::Result {
        write!(f, "{}", self.0)
    }
}

impl<E: std::error::Error + 'static> From<E> for Error {
    fn from(error: E) -> Error {
        Error(Box::new(error))
    }
}

impl Error {
    pub fn msg(text: &str) -> Error {
        Error(text.into())
    }
}

#[macro_export]
macro_rules! anyhow {
    ($text:expr) => {
        $crate::runtime::anyhow::Error::msg($text)
    };
}

pub use crate::anyhow;
