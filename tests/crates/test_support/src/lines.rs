//! Runs programs that answer each line of text with a line of text, and parses words of these
//! lines.

use capnp_proved::support::string::String as Text;
use std::io::{self, Write};

/// Answers each line of standard input with a line of standard output.
pub fn answer_lines(answer: impl Fn(&str) -> String) -> io::Result<()> {
    let text = io::read_to_string(io::stdin())?;
    let mut output = io::BufWriter::new(io::stdout());
    for line in text.lines() {
        writeln!(output, "{}", answer(line))?;
    }
    output.flush()
}

/// Splits `text`, one word, into the arguments of a program, which are separated by commas.
pub fn split_arguments(text: &str) -> Vec<Text> {
    text.split(',')
        .map(|word| Text::from(word.to_owned()))
        .collect()
}

/// Parses a limit: decimal digits, or `none` for no limit, which is `u64::MAX`. Returns `None` if
/// `text` is neither.
pub fn parse_limit(text: &str) -> Option<u64> {
    if text == "none" {
        Some(u64::MAX)
    } else {
        text.parse().ok()
    }
}
