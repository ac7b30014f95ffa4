//! Readers: pointers, structs and lists of a message, read in place.

pub mod readers;

pub use crate::proved::capnp_pointers::{object, source};
