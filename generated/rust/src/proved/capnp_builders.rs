//! Builders: pointers, structs and lists of a message being built; and calls at their places.

pub mod builders;
pub mod copy;
pub mod fields;
pub(in crate::proved::capnp_builders) mod section;
