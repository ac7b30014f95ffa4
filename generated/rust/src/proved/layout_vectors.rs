//! Helps tests of built messages: an audit checks all segments of such a message, and an allocator
//! refuses requests beyond a limit.

pub mod vectors;
