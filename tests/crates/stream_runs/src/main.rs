//! The program `stream_runs`: runs the engine of `capnp_canon` with devices that move few bytes at
//! a time and fail at given places. Answers each line of standard input with a line of standard
//! output. tests/cases/README.md says what a line holds.

mod run;

fn main() -> std::io::Result<()> {
    test_support::answer_lines(run::answer)
}
