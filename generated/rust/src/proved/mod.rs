//! Cap'n Proto's wire layout: segments, pointers, readers, builders, frames, packing, canonical
//! copies. Each module is a library that is written in Rattle and proved there to do what its
//! contracts say. Here it is printed without contracts and proofs, by `tools/rust/generated.py`. No
//! proof is about the printed text; `support` is written by hand.
//!
//! Some functions have preconditions, which Rattle's callers prove. The doc comments state them, and
//! quote them from the contracts. A call that breaks one may panic or return a wrong result, but is
//! never undefined behavior.
#![allow(
    dead_code,
    unexpected_cfgs,
    unused_imports,
    unused_labels,
    unused_variables
)]
#![forbid(unsafe_code)]

#[cfg(not(target_pointer_width = "64"))]
compile_error!("the proofs are about 64-bit addresses, so this crate needs a target that has them");

pub mod capnp_allocation;
pub mod capnp_arena;
pub mod capnp_arena_traits;
pub mod capnp_builders;
pub mod capnp_canonical;
pub mod capnp_copies;
#[cfg(feature = "programs")]
pub mod capnp_edits;
pub mod capnp_framing;
pub mod capnp_in_place;
#[cfg(feature = "programs")]
pub mod capnp_layout;
pub mod capnp_messages;
pub mod capnp_numbers;
pub mod capnp_packing;
pub mod capnp_pointers;
pub mod capnp_readers;
pub mod capnp_refusals;
#[cfg(feature = "programs")]
pub mod capnp_show;
#[cfg(feature = "programs")]
pub mod capnp_streams;
pub mod capnp_walks;
pub mod capnp_words;
#[cfg(feature = "programs")]
pub mod layout_vectors;
pub mod support;
pub mod typed_building;
pub mod typed_conforming;
pub mod typed_messages;
pub mod typed_reading;
