//! Lines of a message being read.

use crate::parse::{self, Fault};
use crate::{reads, walk};
use capnp_proved::capnp_arena::arena::{ReaderArenaImpl, ReaderOptions, SegmentArray};
use capnp_proved::capnp_words::read_limiter::ReadLimiter;

/// By what calls a message is read.
#[derive(Clone, Copy)]
pub enum Task {
    /// All calls, in a fixed order.
    Walk,
    /// The calls in the line.
    Calls,
}

/// Answers a line: a nesting limit, a traversal limit, segments, and calls.
pub fn answer(task: Task, line: &str) -> Result<String, Fault> {
    let words = parse::words(line);
    let [nesting, budget, segments, calls @ ..] = &words[..] else {
        return Err(Fault::Malformed);
    };
    let options = ReaderOptions {
        nesting_limit: parse::number(nesting)?,
        traversal_limit_in_words: parse::limit(budget)?,
    };
    let segments = parse::segments(segments, ',', "")?;
    let slices = parse::slices(&segments);
    answer_message(task, &slices, options, calls)
}

/// Returns the answer for a message of these segments.
fn answer_message(
    task: Task,
    segments: &[&[u8]],
    options: ReaderOptions,
    calls: &[&str],
) -> Result<String, Fault> {
    let Some(array) = SegmentArray::new(segments) else {
        return Err(Fault::Malformed);
    };
    let arena = ReaderArenaImpl::new(array, options);
    let limiter = ReadLimiter::new(options.traversal_limit_in_words);
    match task {
        Task::Walk if calls.is_empty() => Ok(walk::answer(&arena, limiter)),
        Task::Walk => Err(Fault::Malformed),
        Task::Calls => reads::answer(&arena, limiter, calls),
    }
}
