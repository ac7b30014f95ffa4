//! What the crates of tests, and the programs that answer lines, share: messages written as hex
//! digits, an allocator that refuses memory where a test wants it to and notes what is returned,
//! one that notes the requests that it gets, one whose arenas store what they know of their first
//! segment in themselves, devices that move few bytes at a time and fail, and lines with their
//! answers.

mod allocator;
mod devices;
mod first;
mod lines;
mod message;
mod noting;

pub use allocator::{Granted, TestAllocator};
pub use capnp_proved::capnp_framing::framing::OwnedSegments;
pub use devices::{Strain, StrainedInput, StrainedOutput};
pub use first::FirstInArena;
pub use lines::{answer_lines, parse_limit, split_arguments};
pub use message::{arena_from_hex, arena_with_root, decode_hex, encode_hex, has_words};
pub use noting::{NotingAllocator, Request};
