//! What generated readers stand on: fields, texts, data, structs and lists of a message that is
//! read, with contracts that speak of the value that the message means.

pub mod error;
pub mod list;
pub mod value;
