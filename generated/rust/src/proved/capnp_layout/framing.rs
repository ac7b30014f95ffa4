//! Reads and writes the segments of a message in a stream of bytes, and makes and tests whole
//! messages in canonical form (encoding specification, "Serialization Over a Stream" and
//! "Canonicalization").

mod writing;

pub use crate::proved::capnp_framing::framing::{
    read, read_from_flat_slice, read_into, read_into_with, read_segment_into,
    read_segment_into_with, write, FrameError, FrameSegments, OwnedSegments, MAX_SEGMENTS,
};
pub use crate::proved::capnp_messages::messages::{
    canonical_bytes, canonical_fault, canonical_segment, canonicalize, canonicalize_into,
    canonicalize_pointer, check, is_canonical_message, read_root, size, validate, validate_root,
    write_copy, CanonicalError, CopyMemory, MessageExtent,
};
pub use crate::proved::capnp_readers::readers::{CanonicalFault, CanonicalFaultReason};
pub use writing::write_canonical;
