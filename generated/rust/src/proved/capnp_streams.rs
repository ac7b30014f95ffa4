//! Streams of framed messages (encoding specification, "Serialization Over a Stream"): for each
//! message of an input, makes its canonical copy, tests whether it is canonical, or counts its
//! words, and writes the answers in order. This is the engine of the program `capnp_canon`.

pub mod device_log;
pub mod devices;
pub mod looks;
pub mod streams;
