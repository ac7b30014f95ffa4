//! The task for each message, and the arguments that ask for it.

use super::arguments::{ArgumentFault, ArgumentStep, ParsedArguments};
use super::input_form::InputForm;
use super::path::Path;
use crate::proved::capnp_arena::arena::ReaderOptions;
use crate::proved::capnp_messages::messages::Command;
use crate::proved::support::alloc::{AllocError, Global};
use crate::proved::support::string::String;
use crate::proved::support::vec::Vec;

/// What to do with each message of a stream, and the limits for reading it.
#[derive(Clone, Copy)]
pub struct Task {
    pub command: Command,
    pub limits: ReaderOptions,
    /// How the input is read.
    pub input_form: InputForm,
    /// Whether canonical messages are written packed.
    pub pack: bool,
    /// Whether the canonical words of each message are written as a line of hex digits, without a
    /// frame.
    pub hex: bool,
    /// Whether nothing is written to the output, so that only the program's exit status says
    /// whether each message is canonical, or sound. If the files are lists, whether only what fails
    /// is written.
    pub quiet: bool,
    /// Whether the files are lists that `digest` has written, which are verified.
    pub lists: bool,
    /// The path from the root pointer to the part of each message that `Canon`, `Size` and `Digest`
    /// are about; `Check` and `Validate` are about the whole message.
    pub path: Path,
}

/// How to show each message of a stream, and the limits for reading it.
#[derive(Clone, Copy)]
pub struct ShowTask {
    /// Whether each message is one line of JSON.
    pub json: bool,
    /// Whether places are left out.
    pub values: bool,
    /// Whether parts of the lines have colors, by control sequences of a terminal.
    pub colors: bool,
    /// How many pointers below the first one are followed; none if it is below 1.
    pub depth: i32,
    /// The most bytes to write for all messages together; `None` if any number may be written.
    pub bytes: Option<usize>,
    /// The path from the root pointer to the part of each message that is shown.
    pub path: Path,
    pub limits: ReaderOptions,
    /// How the input is read.
    pub input_form: InputForm,
}

/// What to do with each message of an input.
#[derive(Clone, Copy)]
pub enum Job {
    /// To answer it.
    Answer(Task),
    /// To show it.
    Show(ShowTask),
}

impl Job {
    /// The limits for reading each message.
    pub fn limits(&self) -> ReaderOptions {
        match self {
            Job::Answer(task) => task.limits,
            Job::Show(task) => task.limits,
        }
    }

    /// How the input is read.
    pub fn input_form(&self) -> InputForm {
        match self {
            Job::Answer(task) => task.input_form,
            Job::Show(task) => task.input_form,
        }
    }
}

/// How to compare the messages of two files, and the limits for reading them.
#[derive(Clone, Copy)]
pub struct DiffTask {
    pub limits: ReaderOptions,
    /// How both inputs are read.
    pub input_form: InputForm,
    /// Whether nothing is written to the output, so that only the program's exit status says
    /// whether the messages differ.
    pub quiet: bool,
}

/// What the arguments ask for.
#[derive(Clone, Copy)]
pub enum Request {
    /// The help text.
    Help,
    /// The program's name and version.
    Version,
    /// A task for each message of the files that `named_files` returns. Without files the input is
    /// standard input.
    Run(Task),
    /// To show each message of these files.
    Show(ShowTask),
    /// To compare the messages of two files.
    Diff(DiffTask),
}

/// The first wrong argument.
#[derive(Clone, Copy)]
pub struct WrongArgument {
    /// The number of arguments before it. If these are all the arguments, one is missing.
    pub at: usize,
    /// What is wrong with it.
    pub fault: ArgumentFault,
}

/// Parses the arguments after the program's name: `canon`, `check`, `size`, `digest`, `validate`,
/// `show` or `diff`, options, and files.
///
/// The options are `--flat`, `--pack` and `--hex` (of `canon`), `--flat` and `--quiet` (of `check`,
/// `validate` and `diff`), `--flat` (of `size`), `--flat`, `--check` or `-c`, and with it `--quiet`
/// (of `digest`), `--at PATH` (of `canon`, `size`, `digest` and `show`), `--flat`, `--json`,
/// `--values`, `--color`, `--depth N` and `--bytes N` (of `show`), and `--packed`, `--from-flat`,
/// `--nesting N` and `--words N` (of all seven). They may come anywhere. If one is repeated, the
/// last counts. An option with a value may have a `=` in place of the space. `--hex` can't be used
/// with `--flat` or `--pack`: hex digits are written neither raw nor packed. `--json` can't be used
/// with `--color`. `--packed` can't be used with `--from-flat`, or with a `--flat` that isn't of
/// `canon`: raw words are never read packed.
///
/// An argument looks like an option if it is `-` followed by more; `-` alone is standard input. Of
/// the arguments that neither look like an option nor are the value of one, the first is the
/// command, and the others are files. After `--` no argument is an option. What follows `--help` or
/// `-h`, or `--version` or `-V`, is ignored.
///
/// The nesting limit is an `i32` in decimal digits with an optional `-`; default 64. The traversal
/// limit in words is a `u64` in decimal digits, or `none`; default 8,388,608. A path is 1 to 32
/// indexes between dots; each is a `u32` in decimal digits, with or without brackets: `0.2.[7].1`.
/// The depth is written like the nesting limit; default 64. The most bytes are written like the
/// traversal limit; default 1,073,741,824, which is 1 GiB.
///
/// Refuses all other arguments. The `WrongArgument` is the first one that can't follow those before
/// it; the arguments after that one don't matter.
pub fn parse_args(args: &[String]) -> Result<Request, WrongArgument> {
    let mut line = ParsedArguments::new();
    let mut at = 0;
    let mut rest = args;
    while let Some((arg, more)) = rest.split_first() {
        match line.parse_argument(arg.as_str()) {
            Ok(ArgumentStep::Goes(next)) => line = next,
            Ok(ArgumentStep::File) => {}
            Ok(ArgumentStep::Stops(request)) => return Ok(request),
            Err(fault) => return Err(WrongArgument { at, fault }),
        }
        at += 1;
        rest = more;
    }
    match line.into_request() {
        Ok(request) => Ok(request),
        Err(fault) => Err(WrongArgument { at, fault }),
    }
}

/// Returns the files among the arguments, in order. Fails only if memory runs out.
pub fn named_files(alloc: Global, args: &[String]) -> Result<Vec<String>, AllocError> {
    let mut files = Vec::new(alloc);
    let mut line = ParsedArguments::new();
    let mut rest = args;
    while let Some((arg, more)) = rest.split_first() {
        match line.parse_argument(arg.as_str()) {
            Ok(ArgumentStep::Goes(next)) => line = next,
            Ok(ArgumentStep::File) => files.push(arg.clone()?)?,
            Ok(ArgumentStep::Stops(_)) | Err(_) => return Ok(files),
        }
        rest = more;
    }
    Ok(files)
}
