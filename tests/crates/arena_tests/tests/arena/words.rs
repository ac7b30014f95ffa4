//! Tests of `capnp_words`, by its public calls: pointer words, numbers and words in bytes, and the
//! texts of refusals.

mod lanes;
mod names;
mod numbers;
mod pointers;
mod refusals;
mod slices;
