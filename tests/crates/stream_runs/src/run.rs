//! Makes one run of the engine of `capnp_canon`, as a line of input asks for it. One word of that
//! line is for the run's input, and one is for its output. Such a word states how many calls of the
//! device succeed, and how many bytes each call moves at most. A comma separates the two numbers;
//! `none` means no limit.

use capnp_proved::capnp_messages::messages::CopyMemory;
use capnp_proved::capnp_packing::buffered::BufferedOutput;
use capnp_proved::capnp_packing::packing::PackingOutput;
use capnp_proved::capnp_streams::streams::{self, InputForm, Job, Request, Stop, Summary, Task};
use capnp_proved::support::alloc::Global;
use test_support::{
    decode_hex, encode_hex, parse_limit, split_arguments, Strain, StrainedInput, StrainedOutput,
};

/// What a line of input asks for.
struct Run {
    task: Task,
    reads: Strain,
    writes: Strain,
    input: Vec<u8>,
}

/// Returns the line of output for a line of input: `malformed` if that doesn't have the right form.
pub fn answer(line: &str) -> String {
    match parse_line(line) {
        Some(run) => run_once(&run),
        None => "malformed".to_owned(),
    }
}

/// Parses a line of input; `None` if it doesn't have the right form.
fn parse_line(line: &str) -> Option<Run> {
    let words: Vec<&str> = line.split(' ').collect();
    let [args, reads, writes, input] = words[..] else {
        return None;
    };
    Some(Run {
        task: parse_task(args)?,
        reads: parse_strain(reads)?,
        writes: parse_strain(writes)?,
        input: parse_input(input)?,
    })
}

/// Parses the arguments of `capnp_canon`, separated by commas. Returns `None` unless they ask for a
/// task, name no file, and don't ask to read raw words instead of frames.
fn parse_task(text: &str) -> Option<Task> {
    let args = split_arguments(text);
    let files = streams::named_files(Global, &args).expect("memory");
    match streams::parse_args(&args) {
        Ok(Request::Run(task)) if files.is_empty() && task.input_form != InputForm::RawWords => Some(task),
        _ => None,
    }
}

/// Parses how a device works: how many of its calls succeed, a comma, and how many bytes each call
/// moves at most. Either number is in decimal digits with an optional `+`, or is `none` for no
/// limit. Returns `None` if the text doesn't have this form.
fn parse_strain(text: &str) -> Option<Strain> {
    let (calls, most) = text.split_once(',')?;
    Some(Strain {
        calls: parse_limit(calls)?,
        most: parse_limit(most)? as usize,
    })
}

/// Decodes hex digits to bytes; `-` means no bytes. Returns `None` if the text is neither.
fn parse_input(text: &str) -> Option<Vec<u8>> {
    if text == "-" {
        return Some(Vec::new());
    }
    decode_hex(text)
}

/// Makes a run, and returns a line that states how it ended and what was written.
fn run_once(run: &Run) -> String {
    let mut output = StrainedOutput::new(run.writes);
    if !run.task.pack {
        let ended = run_to(run, &mut output);
        return format_outcome(ended, &output.bytes);
    }
    let mut packing = PackingOutput::new(output);
    let ended = run_to(run, &mut packing);
    let is_flushed = packing.write_pending().is_ok();
    let output = packing.into_packed();
    if is_flushed {
        format_outcome(ended, &output.bytes)
    } else {
        format!("unflushed -{}", encode_hex(&output.bytes))
    }
}

/// Makes a run that writes to `output`, which hasn't failed.
fn run_to<W: BufferedOutput>(run: &Run, output: &mut W) -> Result<Summary, Stop> {
    let mut input = StrainedInput::new(&run.input, run.reads);
    let (memory, job) = (CopyMemory::new(Global), Job::Answer(run.task));
    if run.task.input_form == InputForm::PackedFrames {
        streams::run_packed(Global, memory, job, input, output).0
    } else {
        streams::run(Global, memory, job, &mut input, output).0
    }
}

/// Returns a line that states how a run ended. `done` is followed by the number of messages, and by
/// `false` if the task tests for canonical form and some message isn't canonical, otherwise by
/// `true`. `stopped` is followed by the number of messages that were answered, and the reason why
/// the next one wasn't. At the end, after a `-`, are the bytes that were written, in hex digits.
fn format_outcome(ended: Result<Summary, Stop>, written: &[u8]) -> String {
    let digits = encode_hex(written);
    match ended {
        Ok(summary) => format!("done {} {} -{digits}", summary.messages, summary.holds),
        Err(stop) => format!("stopped {} {} -{digits}", stop.answered, stop.fault.name()),
    }
}
