//! Works on whole messages: makes a canonical copy and writes it as a frame, tests for canonical
//! form, and measures the size. For command-line programs, also parses limits and writes numbers as
//! text.

pub mod messages;
pub mod text;
