//! Tests of the public calls of `capnp_layout`: its devices, the modules of lower crates that it
//! re-exports, whole messages, what a run of its engine requests from an allocator, and what
//! writing a canonical frame charges. Tests that run the program `layout_tool` show the engine's
//! other answers, also if memory runs out or a device fails.

mod canonical_frames;
mod names;
mod tries;
mod whole_messages;
