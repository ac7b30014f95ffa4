//! Reads one object of a message in place: follows the pointer to the object, checks that the words
//! that the object claims are inside a segment, and charges these words to a limiter before they
//! are read.

pub mod nesting;
pub mod object;
pub mod pointers;
pub mod source;
