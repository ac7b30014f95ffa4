//! Messages for programs over generated code: a `MessageReader` has the segments of a message with
//! the limits for reading it, and a `MessageBuilder` has the memory for building one. A program
//! passes their parts to generated readers and builders.

pub mod message;
pub mod serialize;
pub mod serialize_packed;
