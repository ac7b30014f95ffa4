//! The segments of a message in a stream of bytes (encoding specification, "Serialization Over a
//! Stream"), and the devices that bytes come from and go to.

pub mod devices;
pub mod framing;
