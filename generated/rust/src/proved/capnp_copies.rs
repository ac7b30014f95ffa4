//! Copies the value of a pointer of one message into another message being built.

pub mod copy;
pub mod form;
pub mod widths;
