//! The segments of a message in a stream of bytes (encoding specification, "Serialization Over a
//! Stream").

mod flat;
mod frame_error;
mod limits;
mod owned_segments;
mod prefix;
mod reading;
mod segment;
mod writing;

pub use flat::{read_from_flat_slice, FrameSegments};
pub use frame_error::FrameError;
pub use limits::most_words;
pub use owned_segments::OwnedSegments;
pub use prefix::size_from_prefix;
pub use reading::{read, read_into, read_into_with};
pub use segment::{read_segment_into, read_segment_into_with};
pub use writing::write;

/// The most segments that a frame may have, 512. The format itself has room for 2^32.
pub const MAX_SEGMENTS: usize = 512;
