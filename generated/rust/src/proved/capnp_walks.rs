//! Walks over a message, and lists its objects in the caller's array.

pub mod walks;
