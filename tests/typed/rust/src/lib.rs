//! What `capnpc-layout-rust` writes for the schemas of this folder.
#![warn(missing_docs)]
#![forbid(unsafe_code)]

/// `addressbook.capnp`
pub mod addressbook_capnp;
/// `fields.capnp`
pub mod fields_capnp;
/// `recursive.capnp`
pub mod recursive_capnp;
pub mod values;
