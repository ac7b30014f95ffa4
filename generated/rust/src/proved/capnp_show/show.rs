//! Shows what a message holds, without its schema.

mod compare;
mod json;
mod lines;
mod message;
mod objects;
mod path;
mod text;
mod values;

pub use compare::{compare_messages, CompareFault};
pub use message::{show_message, ShowFault, Showing};
pub use text::MOST_BYTES;
