//! Copies structs, lists and consecutive pointers of a message being read.

mod each;
mod list_value;
mod struct_value;

pub use crate::proved::capnp_copies::copy::{copy_in_form, copy_value};
pub use each::copy_each;
pub use list_value::copy_list;
pub use struct_value::copy_struct_value;
