//! Does a job with each message of a stream.

mod answers;
mod arguments;
mod diffs;
mod flat;
mod input_form;
mod options;
mod packed;
mod parts;
mod path;
mod runs;
mod shows;
mod stream_error;
mod task;
mod writing;

pub use crate::proved::capnp_messages::messages::{Command, Form};
pub use arguments::ArgumentFault;
pub use diffs::{run_diff, run_diff_flat, run_diff_packed, Compared, DiffFault, Side};
pub use flat::run_flat;
pub use input_form::InputForm;
pub use options::{option_of, OptionName, PlainOption, Subcommand, ValueOption};
pub use packed::run_packed;
pub use path::Path;
pub use runs::{run, Stop, Summary};
pub use stream_error::StreamError;
pub use task::{named_files, parse_args, DiffTask, Job, Request, ShowTask, Task, WrongArgument};
