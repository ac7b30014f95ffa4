//! Works on the contents of a message being built: finds, reads, writes and lends objects in place,
//! and replaces an object after zeroing its words.

pub mod bytes;
pub mod existing;
pub mod initializing;
pub mod lent;
pub mod lists;
pub mod moving;
pub mod number_lists;
pub mod numbers;
pub mod opening;
pub mod remaking;
pub mod widening;
