//! What the sources take from Rattle's library, where it differs from Rust's: lists and texts whose
//! calls refuse if there is no memory, vectors of lanes as arrays, SHA-256 and hex digits. Written by
//! hand, and only tested.

extern crate alloc as rust_alloc;
#[cfg(feature = "std")]
extern crate std;

pub mod alloc;
pub mod hex;
#[cfg(feature = "std")]
pub mod io;
pub mod sha2;
pub mod simd;
pub mod string;
pub mod vec;
