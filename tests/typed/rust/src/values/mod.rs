//! What the generator writes with `--values`.

/// `addressbook.capnp`
pub mod addressbook_capnp;
/// `fields.capnp`
pub mod fields_capnp;
/// `recursive.capnp`
pub mod recursive_capnp;
