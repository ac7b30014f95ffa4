//! Packed bytes (encoding specification, "Packing"). What a packed byte unpacks to depends on its
//! `Place`: whether it is a tag, a byte of a word, or a count. The place and the byte determine the
//! next byte's place. Packing handles one word, or several consecutive words, at a time.

mod in_memory;
mod packing_error;
mod packing_output;
mod pieces;
mod place;
mod read_ahead;
mod to_slice;
mod unpacking;
mod unpacking_input;
mod words;

pub use in_memory::{pack, unpack};
pub use packing_error::PackingError;
pub use packing_output::PackingOutput;
pub use pieces::unpack_piece;
pub use place::{step, Place, Taken};
pub use to_slice::{unpack_to_slice, unpacked_size};
pub use unpacking::Progress;
pub use unpacking_input::UnpackingInput;
