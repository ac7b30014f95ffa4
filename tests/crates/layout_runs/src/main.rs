//! The program `layout_runs`: runs the engine of `layout_tool` with an input, an output and an
//! allocator that fail after a given number of calls, and builds messages of many segments while
//! memory is scarce. Answers each line of standard input with a line of standard output.
//! tests/cases/README.md says what a line holds.

mod frames;
mod run;
mod segments;

fn main() -> std::io::Result<()> {
    test_support::answer_lines(run::answer)
}
