//! Finds the pointer at which a message is broken: the one at which a command stops reading.

pub mod refusals;
