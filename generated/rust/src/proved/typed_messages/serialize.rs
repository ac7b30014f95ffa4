//! Reads and writes messages as frames (encoding specification, "Serialization Over a Stream").

mod reading;
mod stream;
mod writing;

pub use reading::{read_message, read_message_from_flat_slice, try_read_message};
pub use stream::Messages;
pub use writing::write_message;
