//! The traits of arenas, through which other crates read and build messages.

pub mod arena;
