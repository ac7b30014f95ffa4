//! Tests of `capnp_readers` by its public calls. They show what no case of
//! `tests/cases/reads.jsonl` shows: fields, copies, readers at places that the caller names, other
//! arenas, and the objects that the readers are built on.

pub mod messages;
mod names;
mod objects;
mod places;
