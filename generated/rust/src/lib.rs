//! The proved sources of this repository, printed as Rust: see [`proved`].
#![no_std]

pub mod proved;
pub use proved::*;
