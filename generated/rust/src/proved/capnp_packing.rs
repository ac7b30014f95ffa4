//! Packed bytes (encoding specification, "Packing"): words without their zero bytes. Packs and
//! unpacks bytes in memory, unpacks bytes while reading them from an input, and packs words while
//! writing them to an output.

pub mod buffered;
pub mod packing;
