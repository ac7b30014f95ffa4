//! The engine of the program `layout_tool`.

mod args;
mod canon;
mod check;
mod engine;
mod framed;
mod frames;
mod limits;
mod lines;
mod reading;
mod refusal;
mod size;
mod writing;

pub use crate::proved::capnp_messages::text::{
    parse_nesting_limit, parse_traversal_limit, write_number, write_size,
};
pub use args::{parse_args, Args};
pub use engine::{run, run_with, Outcome};
pub use refusal::Refusal;
