//! Tests of `capnp_arena`, by its public calls: places and words of segments being read, messages
//! being built, and refused memory. Also tests of `capnp_words`, `capnp_framing`, `capnp_packing`
//! and `typed_messages`.
//!
//! They leave out what the test cases (`tests/cases`), the streams of frames (`tests/streams`) and
//! the runs of whole programs already show.

mod asking;
mod building;
mod devices;
mod messages;
mod names;
mod packing;
mod reading;
mod returning;
mod scratch;
mod words;
