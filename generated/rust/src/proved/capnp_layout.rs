//! The wire layout of Cap'n Proto: the crates below under one name, and the engine of the program
//! `layout_tool`.

pub mod framing;
pub mod tool;

pub use crate::proved::capnp_arena::arena;
pub use crate::proved::capnp_builders::{builders, fields};
pub use crate::proved::capnp_edits::edit;
pub use crate::proved::capnp_framing::devices;
pub use crate::proved::capnp_readers::{object, readers, source};
pub use crate::proved::capnp_words::error::Result;
pub use crate::proved::capnp_words::{
    error, lanes, mask, primitive, read_limiter, units, wire_pointer, words, zero,
};
