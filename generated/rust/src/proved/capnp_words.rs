//! The basics of the Cap'n Proto wire format: units, numbers in bytes, words, pointer words, the
//! traversal limit, and the names of refusals.

pub mod error;
pub mod lanes;
pub mod mask;
pub mod primitive;
pub mod read_limiter;
pub mod units;
pub mod wire_pointer;
pub mod words;
pub mod zero;
