//! Makes a pointer in a message being built lead to a new object, all zero; and zeroes what a
//! pointer leads to.

pub mod landing;
pub mod making;
pub mod zeroing;
