//! Tests of `capnp_builders`, by its public calls. They show what the test cases (`tests/cases`)
//! don't show: calls that no case makes, the words that a call requests from its allocator, and
//! sources that no case names. Also tests of `capnp_readers` and `capnp_edits`.

mod asking;
mod copies;
mod edits;
mod fields;
mod messages;
mod readers;
