//! What the programs take from Rattle's library in addition: their runtime, arguments and files.

pub mod anyhow;
pub mod env;
pub mod fs;
pub mod io;
pub mod process;
pub mod rt;
pub mod slices;
pub mod time;
