//! Tests once whether a message conforms to a schema. After that, its fields are read by calls that
//! can't be refused.

pub mod checked;
pub mod conforms;
pub mod schema;
mod table;
