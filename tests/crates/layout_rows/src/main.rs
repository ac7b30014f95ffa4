//! The program `layout_rows`: answers cases of reading and building calls, and audits messages.
//! Answers each line of standard input with a line of standard output. tests/cases/README.md says
//! what a line holds.

mod audits;
mod building;
mod builds;
mod calls;
mod edits;
mod elements;
mod memory;
mod output;
mod parse;
mod reading;
mod reads;
mod source;
mod types;
mod walk;

use parse::Fault;
use std::process::ExitCode;
use std::{env, io};
use test_support::answer_lines;

/// What each line of the input holds.
#[derive(Clone, Copy)]
enum Command {
    /// A message, which is read by all calls, in a fixed order.
    Walk,
    /// A message, and calls that read it.
    Reads,
    /// A message being built, and edits of it.
    Edits,
    /// A message being built, and calls that build it.
    Builds,
    /// The segments of a message, whether or not a builder made it.
    Audits,
}

fn main() -> io::Result<ExitCode> {
    let Some(command) = parse_command(env::args().skip(1)) else {
        eprintln!("bad arguments");
        return Ok(ExitCode::from(2));
    };
    answer_lines(|line| answer(command, line))?;
    Ok(ExitCode::SUCCESS)
}

/// Returns the command that the only one of `words` names; `None` if there isn't exactly one word,
/// or it names no command.
fn parse_command(mut words: impl Iterator<Item = String>) -> Option<Command> {
    let (Some(name), None) = (words.next(), words.next()) else {
        return None;
    };
    match name.as_str() {
        "walk" => Some(Command::Walk),
        "reads" => Some(Command::Reads),
        "edits" => Some(Command::Edits),
        "builds" => Some(Command::Builds),
        "audits" => Some(Command::Audits),
        _ => None,
    }
}

/// Returns the answer to a line.
fn answer(command: Command, line: &str) -> String {
    let answered = match command {
        Command::Walk => reading::answer(reading::Task::Walk, line),
        Command::Reads => reading::answer(reading::Task::Calls, line),
        Command::Edits => building::answer(building::Task::Edits, line),
        Command::Builds => building::answer(building::Task::Calls, line),
        Command::Audits => audits::answer(line),
    };
    match answered {
        Ok(text) => text,
        Err(Fault::Refused(kind)) => format!("refused {kind}"),
        Err(Fault::Malformed | Fault::Unfit) => "malformed".to_owned(),
    }
}
