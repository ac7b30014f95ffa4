//! The arguments of a program.

use super::io::{Error, ErrorKind, Result};
use super::rt::HostRuntime;
use capnp_proved::support::string::String;

/// The arguments; the first one is the program's name.
pub struct Args(std::vec::IntoIter<std::string::String>);

/// The arguments; an error if one of them isn't text.
pub fn args(_rt: &HostRuntime) -> Result<Args> {
    let words: core::result::Result<std::vec::Vec<_>, _> =
        std::env::args_os().map(|word| word.into_string()).collect();
    match words {
        Ok(words) => Ok(Args(words.into_iter())),
        Err(_) => Err(Error::from(ErrorKind::InvalidData)),
    }
}

impl Args {
    pub fn skip(mut self, n: usize) -> Args {
        for _ in 0..n {
            self.0.next();
        }
        self
    }
}

impl Iterator for Args {
    type Item = String;

    fn next(&mut self) -> Option<String> {
        self.0.next().map(String::from)
    }
}
