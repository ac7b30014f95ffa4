//! What generated builders stand on: the fields of a struct of a message being built, and the
//! elements of a list, at their places. Each call says what it does to the value of the struct, and
//! that nothing else of the message changes.

pub mod copying;
pub mod groups;
pub mod list;
pub mod opening;
pub mod places;
pub mod reading;
pub mod slots;
pub mod tag;
pub mod value;
